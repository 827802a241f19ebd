
// ---- no part of midden: shows the private columns to the comparison ----
pub struct Shown<'a> {
    pub bases: &'a [u64],
    pub short: &'a [u16],
    pub long: &'a [(u32, u64)],
    pub codes: &'a [u16],
    pub fields: &'a [u32],
    pub escapes: &'a [(u64, u32)],
    pub table: &'a [u16],
}

impl Graph {
    pub fn shown(&self) -> Shown<'_> {
        let (bases, short, long) = self.offsets.0.shown();
        let Labels { codes, fields, escapes, code_of, .. } = &self.labels;
        Shown { bases, short, long, codes, fields, escapes, table: code_of }
    }
}

impl Edges<'_> {
    pub fn exact(&self, k: usize) -> u32 {
        self.labels.exact(k)
    }
}
