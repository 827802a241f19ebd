//! What comes in: document 01's columns, as slices that are only read.
use crate::answer::value;
use crate::ffi;
use crate::refusal::Refusal;

/// Objects, in the order of their ids: id, kind (0 instance, 1 object array, 2 primitive array, 3 class), class, length.
#[derive(Clone, Copy, Debug, Default)]
pub struct Objects<'a> {
    /// Ids, strictly rising, none of them 0.
    pub ids: &'a [u64],
    /// 0 instance, 1 object array, 2 primitive array, 3 class.
    pub kinds: &'a [u8],
    /// The class of an instance, by its number; not read of others.
    pub classes: &'a [u32],
    /// The length of an array; not read of others.
    pub lengths: &'a [u32],
}

/// Classes: id, loader, dumped flag, reference kind (0 none, 1 soft, 2 weak, 3 phantom, 4 final), a range of slots and one of statics.
#[derive(Clone, Copy, Debug, Default)]
pub struct Classes<'a> {
    /// The class object's id.
    pub ids: &'a [u64],
    /// The id of its loader.
    pub loaders: &'a [u64],
    /// 1 if the dump has the class's own record: only then are its statics read.
    pub dumped: &'a [u8],
    /// 0 none, 1 soft, 2 weak, 3 phantom, 4 final reference.
    pub kinds: &'a [u8],
    /// Where its slots start in [`Slots`].
    pub slot_starts: &'a [u32],
    /// Where they end.
    pub slot_ends: &'a [u32],
    /// Where its statics start in [`Statics`].
    pub static_starts: &'a [u32],
    /// Where they end.
    pub static_ends: &'a [u32],
}

/// Slots: offset in the body, label, weak flag. Offsets strictly rise within a class.
#[derive(Clone, Copy, Debug, Default)]
pub struct Slots<'a> {
    /// Where in a body the id stands.
    pub offsets: &'a [u32],
    /// The name of the field.
    pub labels: &'a [u32],
    /// 1 if the reference is kept by the policy alone.
    pub weak: &'a [u8],
}

/// One slot, as a row: what [`SlotColumns::fill`] takes. It lies in memory as the `SlotRow` of the library does.
#[repr(C)]
#[derive(Clone, Copy, Debug, Default, PartialEq, Eq)]
pub struct SlotRow {
    /// Where in a body the id stands.
    pub offset: u32,
    /// The name of the field.
    pub label: u32,
    /// 1 if the reference is kept by the policy alone.
    pub weak: u8,
}

/// Slot columns of one's own, to be filled from rows that stand elsewhere. Only what was filled is handed out.
#[derive(Clone, Debug, Default, PartialEq, Eq)]
pub struct SlotColumns {
    offsets: Vec<u32>,
    labels: Vec<u32>,
    weak: Vec<u8>,
    filled: usize,
}

impl SlotColumns {
    /// Columns with room for so many rows, none of them filled.
    pub fn with_room(rows: usize) -> SlotColumns {
        SlotColumns { offsets: vec![0; rows], labels: vec![0; rows], weak: vec![0; rows], filled: 0 }
    }

    /// Fills the columns with these rows, in place of those before: how many they are. Where there is no room for all of them,
    /// ROOM, and none is filled.
    pub fn fill(&mut self, rows: &[SlotRow]) -> Result<usize, Refusal> {
        let mut answer = [0; 4];
        ffi::yokefathom_fill_rows(rows, &mut self.offsets, &mut self.labels, &mut self.weak, &mut answer);
        self.keep(&answer)
    }

    /// The same with rows that are lent as columns. Where the three differ in length, LENGTHS, and none is filled.
    pub fn fill_columns(&mut self, from: &Slots<'_>) -> Result<usize, Refusal> {
        let Slots { offsets, labels, weak } = *from;
        if labels.len() != offsets.len() || weak.len() != offsets.len() {
            // No rows at all: that clears the columns.
            self.fill(&[])?;
            return Err(Refusal::Lengths);
        }
        let mut answer = [0; 4];
        ffi::yokefathom_fill_columns(offsets, labels, weak, &mut self.offsets, &mut self.labels, &mut self.weak, &mut answer);
        self.keep(&answer)
    }

    /// How many rows a call filled, which is kept: none where it refused.
    fn keep(&mut self, answer: &[u64; 4]) -> Result<usize, Refusal> {
        let rows = value(answer).map(|rows| rows as usize);
        self.filled = rows.unwrap_or(0);
        rows
    }

    /// The rows that were filled, as a schema takes them: none at first, and none after a refusal.
    pub fn slots(&self) -> Slots<'_> {
        let filled = ..self.filled;
        Slots { offsets: &self.offsets[filled], labels: &self.labels[filled], weak: &self.weak[filled] }
    }
}

/// Statics: name, type (2 is an object), value.
#[derive(Clone, Copy, Debug, Default)]
pub struct Statics<'a> {
    /// The name of the field.
    pub names: &'a [u32],
    /// 2 for an object; 4 to 11 are skipped.
    pub types: &'a [u8],
    /// The value: of an object, its id.
    pub values: &'a [u64],
}

/// Classes with their slots and statics, and how many names there are.
#[derive(Clone, Copy, Debug, Default)]
pub struct Schema<'a> {
    /// The classes.
    pub classes: Classes<'a>,
    /// Their slots.
    pub slots: Slots<'a>,
    /// Their statics.
    pub statics: Statics<'a>,
    /// How many names there are; labels of fields are below it.
    pub names: usize,
}

/// Where the ids that objects hold are read from.
#[derive(Clone, Copy, Debug)]
pub enum References<'a> {
    /// Ids gathered before: codes, escapes, base, and where each object's part starts.
    Copied {
        /// 0 for null; an id's distance above the base in steps of 8, plus one; or 4,294,967,295 for an id that is escaped.
        codes: &'a [u32],
        /// The places of escaped ids among the codes, strictly rising.
        escape_places: &'a [u64],
        /// The escaped ids, whole.
        escape_ids: &'a [u64],
        /// The id that code 1 stands for.
        base: u64,
        /// Where each object's part starts.
        starts: &'a [u32],
    },
    /// Ids in the objects' bodies: the bytes, the id size, and where each body starts and how long it is.
    Raw {
        /// The bytes that the bodies lie in: a whole dump file, for one.
        bytes: &'a [u8],
        /// How many bytes an id has, 4 or 8, the highest first.
        id_size: usize,
        /// Where each object's body starts.
        starts: &'a [u64],
        /// How many bytes it has.
        lengths: &'a [u32],
    },
}

/// Which referents count as held.
#[derive(Clone, Copy, Debug, Default, PartialEq, Eq)]
pub struct ReferencePolicy {
    /// Keep what soft references hold.
    pub soft: bool,
    /// Keep what all other references hold.
    pub weak: bool,
}

impl ReferencePolicy {
    /// The four policies: those that keep neither, soft, weak, both.
    pub const ALL: [ReferencePolicy; 4] = [
        ReferencePolicy { soft: false, weak: false },
        ReferencePolicy { soft: true, weak: false },
        ReferencePolicy { soft: false, weak: true },
        ReferencePolicy { soft: true, weak: true },
    ];

    /// Whether this policy keeps whatever the other one keeps. Then each object's edges under the other are among those under this
    /// one, in the same order: keeping more never removes an edge.
    pub fn covers(self, other: ReferencePolicy) -> bool {
        (self.soft || !other.soft) && (self.weak || !other.weak)
    }
}

/// All that a build reads.
#[derive(Clone, Copy, Debug)]
pub struct Input<'a> {
    /// The objects.
    pub objects: Objects<'a>,
    /// Classes, slots, statics and the name count.
    pub schema: Schema<'a>,
    /// What the objects hold.
    pub references: References<'a>,
    /// Root objects, by number, in any order.
    pub roots: &'a [u32],
    /// Which referents count as held.
    pub policy: ReferencePolicy,
}

/// A plain graph handed over, for [`Graph::from_parts`](crate::Graph::from_parts).
#[derive(Clone, Copy, Debug, Default)]
pub struct Parts<'a> {
    /// Where each object's edges start, then their number.
    pub offsets: &'a [u64],
    /// Every edge's target.
    pub targets: &'a [u32],
    /// Every edge's label.
    pub labels: &'a [u32],
    /// The objects of the weak pairs, sorted.
    pub weak_from: &'a [u32],
    /// Their targets.
    pub weak_to: &'a [u32],
    /// Root objects, kept as they are.
    pub roots: &'a [u32],
    /// The dangling count, kept as it is.
    pub dangling: u64,
}

#[cfg(test)]
mod tests {
    use super::*;

    const ROWS: [SlotRow; 3] = [
        SlotRow { offset: 0, label: 5, weak: 1 },
        SlotRow { offset: 8, label: 0, weak: 0 },
        SlotRow { offset: u32::MAX, label: 7, weak: 255 },
    ];

    /// These rows in front and zeros behind, in columns of these lengths.
    fn holding(rows: &[SlotRow], [offsets, labels, weak]: [usize; 3]) -> SlotColumns {
        let row = |at: usize| rows.get(at).copied().unwrap_or_default();
        SlotColumns {
            offsets: (0..offsets).map(|at| row(at).offset).collect(),
            labels: (0..labels).map(|at| row(at).label).collect(),
            weak: (0..weak).map(|at| row(at).weak).collect(),
            filled: rows.len(),
        }
    }

    /// Whole columns, whose lengths may differ as those of `with_room` do not: none of the nines that they held is left.
    #[test]
    fn rows_are_written_or_nothing_is() {
        let all = holding(&ROWS, [3; 3]);
        for shape in 0..4usize.pow(4) {
            let [rows, offsets, labels, weak] = std::array::from_fn(|k| shape / 4usize.pow(k as u32) % 4);
            let nines = SlotColumns { offsets: vec![9; offsets], labels: vec![9; labels], weak: vec![9; weak], filled: 9 };
            let (said, kept) = if rows <= offsets.min(labels).min(weak) { (Ok(rows), rows) } else { (Err(Refusal::Room(17)), 0) };
            let left = holding(&ROWS[..kept], [offsets, labels, weak]);
            let mut by_rows = nines.clone();
            assert_eq!((by_rows.fill(&ROWS[..rows]), by_rows), (said, left.clone()));
            let mut by_columns = nines.clone();
            let from = Slots { offsets: &all.offsets[..rows], labels: &all.labels[..rows], weak: &all.weak[..rows] };
            assert_eq!((by_columns.fill_columns(&from), by_columns), (said, left));
            let mut refused = nines;
            let from = Slots { weak: &[], labels: &[], offsets: &[8] };
            assert_eq!((refused.fill_columns(&from), refused), (Err(Refusal::Lengths), holding(&[], [offsets, labels, weak])));
        }
    }
}
