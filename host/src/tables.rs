//! A dump's tables and bodies in columns of their own, filled row by row: for a host that has rows.
use std::io::{self, Write};

use crate::input::{Classes, Objects, Schema, SlotRow, Slots, Statics};

/// What objects hold, body by body, for [`References::Raw`](crate::References::Raw). Several workers can fill one each.
#[derive(Clone, Debug, Default, PartialEq, Eq)]
pub struct Bodies {
    bytes: Vec<u8>,
    rows: Vec<(u32, u64, u32)>,
}

impl Bodies {
    /// An object's body begins, of so many bytes. What is [written](Write) next is of it.
    #[inline]
    pub fn begin(&mut self, object: u32, length: u64) {
        // No length in the columns is longer: such a body is refused, SPAN.
        self.rows.push((object, self.bytes.len() as u64, u32::try_from(length).unwrap_or(u32::MAX)));
    }

    /// Another worker's bodies, behind these.
    pub fn append(&mut self, mut more: Bodies) {
        let before = self.bytes.len() as u64;
        self.rows.extend(more.rows.iter().map(|&(object, start, length)| (object, before + start, length)));
        match self.bytes.is_empty() {
            true => self.bytes = more.bytes,
            false => self.bytes.append(&mut more.bytes),
        }
    }

    /// The bytes of all bodies, and for each of so many objects where its body starts and how long it is. Of two bodies the first counts; an object
    /// without one has an empty one. A body of an object that is none of them is left out.
    pub fn columns(self, objects: usize) -> (Vec<u8>, Vec<u64>, Vec<u32>) {
        let (mut starts, mut lengths) = (vec![0; objects], vec![0; objects]);
        for (object, start, length) in self.rows.into_iter().rev().filter(|row| (row.0 as usize) < objects) {
            (starts[object as usize], lengths[object as usize]) = (start, length);
        }
        (self.bytes, starts, lengths)
    }
}

/// The next bytes of the body that was begun last.
impl Write for Bodies {
    #[inline]
    fn write(&mut self, bytes: &[u8]) -> io::Result<usize> {
        self.bytes.write(bytes)
    }

    fn flush(&mut self) -> io::Result<()> {
        Ok(())
    }
}

/// Objects, and classes with their slots and statics, one row at a time. Nothing is tested here: a build tests what it is lent.
///
/// ```
/// # use yokefathom::*;
/// let mut tables = Tables::new(1);
/// tables.class(0x10, 0, true, 0);
/// tables.slot(SlotRow { offset: 0, label: 0, weak: 0 });
/// tables.object(0x20, 0, 0, 0);
/// let (schema, objects) = (tables.schema(), tables.objects());
/// assert_eq!((schema.classes.slot_starts, schema.classes.slot_ends, objects.ids), (&[0][..], &[1][..], &[0x20][..]));
/// ```
#[derive(Clone, Debug, Default, PartialEq, Eq)]
pub struct Tables {
    ids: Vec<u64>,
    kinds: Vec<u8>,
    classes: Vec<u32>,
    lengths: Vec<u32>,
    class_ids: Vec<u64>,
    loaders: Vec<u64>,
    dumped: Vec<u8>,
    class_kinds: Vec<u8>,
    slot_starts: Vec<u32>,
    slot_ends: Vec<u32>,
    static_starts: Vec<u32>,
    static_ends: Vec<u32>,
    slot_offsets: Vec<u32>,
    slot_labels: Vec<u32>,
    slot_weak: Vec<u8>,
    static_names: Vec<u32>,
    static_types: Vec<u8>,
    static_values: Vec<u64>,
    names: usize,
}

impl Tables {
    /// Empty tables of a dump with so many names.
    pub fn new(names: usize) -> Tables {
        Tables { names, ..Tables::default() }
    }

    /// One object more: its id, kind, class and length, as [`Objects`] has them.
    #[inline]
    pub fn object(&mut self, id: u64, kind: u8, class: u32, length: u32) {
        self.ids.push(id);
        self.kinds.push(kind);
        self.classes.push(class);
        self.lengths.push(length);
    }

    /// One class more, without slots and statics: its id, loader, dumped flag and reference kind, as [`Classes`] has them.
    pub fn class(&mut self, id: u64, loader: u64, dumped: bool, kind: u8) {
        let (slots, statics) = (self.slot_labels.len() as u32, self.static_names.len() as u32);
        self.class_ids.push(id);
        self.loaders.push(loader);
        self.dumped.push(dumped.into());
        self.class_kinds.push(kind);
        self.slot_starts.push(slots);
        self.slot_ends.push(slots);
        self.static_starts.push(statics);
        self.static_ends.push(statics);
    }

    /// One slot more, of the class that was added last.
    pub fn slot(&mut self, row: SlotRow) {
        self.slot_offsets.push(row.offset);
        self.slot_labels.push(row.label);
        self.slot_weak.push(row.weak);
        self.slot_ends.last_mut().into_iter().for_each(|end| *end = self.slot_labels.len() as u32);
    }

    /// One static more, of the class that was added last: its name, type and value, as [`Statics`] has them.
    pub fn static_field(&mut self, name: u32, kind: u8, value: u64) {
        self.static_names.push(name);
        self.static_types.push(kind);
        self.static_values.push(value);
        self.static_ends.last_mut().into_iter().for_each(|end| *end = self.static_names.len() as u32);
    }

    /// The objects, as an input takes them.
    pub fn objects(&self) -> Objects<'_> {
        Objects { ids: &self.ids, kinds: &self.kinds, classes: &self.classes, lengths: &self.lengths }
    }

    /// Classes, slots, statics and the name count, as an input takes them.
    pub fn schema(&self) -> Schema<'_> {
        Schema {
            classes: Classes {
                ids: &self.class_ids,
                loaders: &self.loaders,
                dumped: &self.dumped,
                kinds: &self.class_kinds,
                slot_starts: &self.slot_starts,
                slot_ends: &self.slot_ends,
                static_starts: &self.static_starts,
                static_ends: &self.static_ends,
            },
            slots: Slots { offsets: &self.slot_offsets, labels: &self.slot_labels, weak: &self.slot_weak },
            statics: Statics { names: &self.static_names, types: &self.static_types, values: &self.static_values },
            names: self.names,
        }
    }
}

#[cfg(test)]
mod tests {
    use super::*;

    #[test]
    fn the_first_body_of_an_object_counts() {
        let [mut first, mut second] = [Bodies::default(), Bodies::default()];
        let add = |bodies: &mut Bodies, object: u32, bytes: &[u8]| {
            bodies.begin(object, bytes.len() as u64);
            bytes.chunks(2).for_each(|part| bodies.write_all(part).expect("there is memory"));
        };
        add(&mut first, 2, &[1, 2, 3]);
        add(&mut second, 0, &[4]);
        add(&mut second, 2, &[5, 6]);
        second.begin(7, 1 << 32);
        let mut all = Bodies::default();
        all.append(first);
        all.append(second);
        assert_eq!(all.clone().columns(3), (vec![1, 2, 3, 4, 5, 6], vec![3, 0, 0], vec![1, 0, 3]));
        assert_eq!(all.columns(8).2, [1, 0, 3, 0, 0, 0, 0, u32::MAX]);
    }

    #[test]
    fn rows_belong_to_the_class_before_them() {
        let mut tables = Tables::new(9);
        tables.class(16, 0, false, 2);
        tables.class(24, 16, true, 0);
        tables.slot(SlotRow { offset: 0, label: 5, weak: 1 });
        tables.slot(SlotRow { offset: 8, label: 6, weak: 0 });
        tables.static_field(7, 2, 16);
        tables.class(0, 0, false, 0);
        tables.static_field(8, 11, 3);
        tables.object(16, 3, 0, 0);
        let Schema { classes, slots, statics, names } = tables.schema();
        assert_eq!((classes.ids, classes.loaders), (&[16, 24, 0][..], &[0, 16, 0][..]));
        assert_eq!((classes.dumped, classes.kinds), (&[0, 1, 0][..], &[2, 0, 0][..]));
        assert_eq!((classes.slot_starts, classes.slot_ends), (&[0, 0, 2][..], &[0, 2, 2][..]));
        assert_eq!((classes.static_starts, classes.static_ends), (&[0, 0, 1][..], &[0, 1, 2][..]));
        assert_eq!((slots.offsets, slots.labels, slots.weak), (&[0, 8][..], &[5, 6][..], &[1, 0][..]));
        assert_eq!((statics.names, statics.types, statics.values, names), (&[7, 8][..], &[2, 11][..], &[16, 3][..], 9));
        let objects = tables.objects();
        assert_eq!((objects.ids, objects.kinds, objects.classes, objects.lengths), (&[16][..], &[3][..], &[0][..], &[0][..]));
    }
}
