//! Stand-in for the unpublished file: a name that is never called here.
pub struct Needle;
impl Needle {
    pub fn matches(&self, _: crate::hprof::Ty, _: &[u8]) -> bool {
        unreachable!("not part of the graph")
    }
}
