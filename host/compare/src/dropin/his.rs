//! The original over its own `graph.rs`.
pub extern crate midden_his as midden;

#[path = "../oracle.rs"]
#[allow(dead_code)]
pub mod oracle;
#[path = "side.rs"]
pub mod side;
