//! The original, unchanged: its published files, laid out by the build script.
#![allow(warnings)]
include!(concat!(env!("OUT_DIR"), "/modules.rs"));
