//! Stand-in for the unpublished file: `analysis/mod.rs` keeps a shape for each class, and reads none.
pub struct Shape;

pub fn shapes(dump: &crate::dump::Dump) -> Vec<Option<Shape>> {
    dump.classes.iter().map(|_| None).collect()
}
