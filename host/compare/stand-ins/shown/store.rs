
// ---- no part of midden: shows the private columns to the comparison ----
impl Blocked {
    pub fn shown(&self) -> (&[u64], &[u16], &[(u32, u64)]) {
        (&self.bases, &self.above, &self.long)
    }
}
