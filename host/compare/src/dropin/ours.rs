//! The original over `host/midden/graph.rs`.
pub extern crate midden_ours as midden;

#[path = "../oracle.rs"]
#[allow(dead_code)]
pub mod oracle;
#[path = "side.rs"]
pub mod side;
