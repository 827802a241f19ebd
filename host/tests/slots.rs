//! Slot rows: what `SlotColumns` takes and hands out, for every small number of rows and room, and that a build goes by it.
mod common;

use std::mem::{align_of, offset_of, size_of};

use common::{COPIED, SCHEMA, bodies, worked};
use yokefathom::{Graph, Input, References, Refusal, Schema, SlotColumns, SlotRow, Slots};

const ROWS: [SlotRow; 3] =
    [SlotRow { offset: 0, label: 5, weak: 1 }, SlotRow { offset: 8, label: 0, weak: 0 }, SlotRow { offset: u32::MAX, label: 7, weak: 255 }];

/// The fronts of columns that hold these rows.
fn lent([offsets, labels, weak]: [usize; 3]) -> Slots<'static> {
    Slots { offsets: &[0, 8, u32::MAX][..offsets], labels: &[5, 0, 7][..labels], weak: &[1, 0, 255][..weak] }
}

/// The rows that are handed out.
fn rows(columns: &SlotColumns) -> Vec<SlotRow> {
    let Slots { offsets, labels, weak } = columns.slots();
    assert_eq!([labels.len(), weak.len()], [offsets.len(); 2], "columns of one length");
    (0..offsets.len()).map(|k| SlotRow { offset: offsets[k], label: labels[k], weak: weak[k] }).collect()
}

/// Three numbers below four, every three of them once.
fn shapes() -> impl Iterator<Item = [usize; 3]> {
    (0..64).map(|shape| [shape / 16, shape / 4 % 4, shape % 4])
}

/// The worked dump with other slots, by the copied and by the raw route.
fn builds(slots: Slots<'_>) -> [Result<Graph, Refusal>; 2] {
    let (bytes, starts, lengths) = bodies(8);
    let raw = References::Raw { bytes: &bytes, id_size: 8, starts: &starts, lengths: &lengths };
    [COPIED, raw].map(|route| Graph::build(&Input { schema: Schema { slots, ..SCHEMA }, ..worked(route) }))
}

#[test]
fn a_row_lies_as_the_library_reads_it() {
    assert_eq!((size_of::<SlotRow>(), align_of::<SlotRow>()), (12, 4));
    assert_eq!([offset_of!(SlotRow, offset), offset_of!(SlotRow, label), offset_of!(SlotRow, weak)], [0, 4, 8]);
}

#[test]
fn only_what_was_filled_is_handed_out() {
    for [before, count, room] in shapes() {
        let mut filled = SlotColumns::with_room(room);
        assert_eq!(rows(&filled), [], "nothing is filled at first");
        let _ = filled.fill(&ROWS[..before]);
        let said = if count <= room { Ok(count) } else { Err(Refusal::Room(17)) };
        let mut by_columns = filled.clone();
        assert_eq!(filled.fill(&ROWS[..count]), said);
        assert_eq!(rows(&filled), ROWS[..said.unwrap_or(0)]);
        assert_eq!(by_columns.fill_columns(&lent([count; 3])), said);
        assert_eq!(by_columns, filled, "both ways leave the same");
    }
}

#[test]
fn columns_of_unequal_lengths_are_refused() {
    for lengths in shapes().filter(|lengths| *lengths != [lengths[0]; 3]) {
        let mut columns = SlotColumns::with_room(3);
        assert_eq!(columns.fill(&ROWS), Ok(3));
        assert_eq!(columns.fill_columns(&lent(lengths)), Err(Refusal::Lengths));
        assert_eq!(columns, SlotColumns::with_room(3), "nothing is left of the rows before");
    }
}

#[test]
fn a_build_goes_by_the_rows_that_were_filled() {
    let sound = builds(SCHEMA.slots);
    assert!(sound.iter().all(Result::is_ok));
    let mut columns = SlotColumns::with_room(5);
    let worked = [SlotRow { offset: 0, label: 0, weak: 0 }, SlotRow { offset: 0, label: 1, weak: 1 }];
    assert_eq!(columns.fill(&worked), Ok(2));
    assert_eq!(builds(columns.slots()), sound);
    assert_eq!(columns.fill_columns(&SCHEMA.slots), Ok(2));
    assert_eq!(builds(columns.slots()), sound);
    // Class 0 has the first row, and class 1 the second. A flag is missing: no build takes what is left for a slot.
    let short = Slots { offsets: &[0, 0], labels: &[0, 1], weak: &[1] };
    assert_eq!(columns.fill_columns(&short), Err(Refusal::Lengths));
    assert_eq!(builds(columns.slots()), [Err(Refusal::Class(0)), Err(Refusal::Class(0))]);
    // Rows that were not filled are no slots either, though there is room for them.
    assert_eq!(columns.fill(&worked[..1]), Ok(1));
    assert_eq!(builds(columns.slots()), [Err(Refusal::Class(1)), Err(Refusal::Class(1))]);
}
