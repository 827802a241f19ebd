//! The columns lent to a call: filled with something before it, cut below their needs, and found zero behind what it used.
use yokefathom::compare::{CodedRoom, IncomingRoom, Room};

use crate::random::Random;

/// What the sides of a comparison come to: why they differ.
pub type Outcome = Result<(), String>;

/// A column of any width.
pub trait Numbers {
    fn spoil(&mut self, extra: usize, value: u8);
    fn cut(&mut self, left: usize);
    fn is_zero_from(&self, from: usize) -> bool;
}

impl<T: From<u8> + Copy + PartialEq> Numbers for Vec<T> {
    fn spoil(&mut self, extra: usize, value: u8) {
        self.resize(self.len() + extra, T::from(0));
        self.fill(T::from(value));
    }

    fn cut(&mut self, left: usize) {
        self.truncate(left);
    }

    fn is_zero_from(&self, from: usize) -> bool {
        self.iter().skip(from).all(|number| *number == T::from(0))
    }
}

/// What a call uses of its columns: nothing of any, after a refusal.
#[derive(Clone, Copy, Debug, Default)]
pub struct Used {
    pub edges: usize,
    pub weak: usize,
    pub roots: usize,
    pub long: usize,
    pub fields: usize,
    pub escapes: usize,
    pub offsets: usize,
    pub table: usize,
}

impl Used {
    /// By the numbers that a call said, of so many objects and names.
    pub fn of(says: &[u64], objects: usize, names: usize) -> Used {
        if says[0] != 0 {
            return Used::default();
        }
        let at = |k: usize| says[k] as usize;
        let (offsets, table) = (objects + 1, names + 2);
        Used { edges: at(1), weak: at(2), roots: at(3), long: at(4), fields: at(5), escapes: at(6), offsets, table }
    }

    /// By the numbers that inverting a graph of so many objects said.
    pub fn of_entries(says: &[u64], objects: usize) -> Used {
        if says[0] != 0 {
            return Used::default();
        }
        Used { edges: says[1] as usize, long: says[2] as usize, offsets: objects + 1, ..Used::default() }
    }
}

/// A lent column: its name, its buffer in document 01, what an accepted call needs of it, and what it leaves in it.
pub struct Column<'a> {
    name: &'static str,
    buffer: u64,
    need: usize,
    left: usize,
    numbers: &'a mut dyn Numbers,
}

fn column<'a>(name: &'static str, buffer: u64, need: usize, left: usize, numbers: &'a mut dyn Numbers) -> Column<'a> {
    Column { name, buffer, need, left, numbers }
}

/// The columns of buffers 4 to 9 that `from_parts` is lent too.
pub fn coded(room: &mut CodedRoom, used: Used) -> Vec<Column<'_>> {
    let bases = used.offsets.div_ceil(256);
    vec![
        column("bases", 4, bases, bases, &mut room.bases),
        column("short offsets", 4, used.offsets, used.offsets, &mut room.short),
        column("places of long offsets", 5, used.long, used.long, &mut room.long_at),
        column("long offsets", 5, used.long, used.long, &mut room.long_value),
        column("fields", 6, used.fields, used.fields, &mut room.fields),
        column("code table", 6, used.table, used.table, &mut room.table),
        column("places of label escapes", 7, used.escapes, used.escapes, &mut room.escape_at),
        column("label escapes", 7, used.escapes, used.escapes, &mut room.escape_label),
        column("codes", 8, used.edges, used.edges, &mut room.codes),
        column("counting space", 9, used.table, 0, &mut room.counting),
        column("ranking space", 9, used.table, 0, &mut room.ranking),
    ]
}

/// All columns of a build that counts so many places.
pub fn all(room: &mut Room, used: Used, places: usize) -> Vec<Column<'_>> {
    let mut columns = vec![
        column("targets", 1, places, used.edges, &mut room.targets),
        column("work labels", 1, places, 0, &mut room.labels),
        column("weak objects", 2, used.weak, used.weak, &mut room.weak_from),
        column("weak targets", 2, used.weak, used.weak, &mut room.weak_to),
        column("roots", 3, used.roots, used.roots, &mut room.roots),
        column("working offsets", 4, used.offsets, 0, &mut room.working),
    ];
    columns.extend(coded(&mut room.coded, used));
    columns
}

/// How many columns the incoming side has, work space with them.
pub const INCOMING: usize = 7;

/// The columns of a graph's incoming side.
pub fn incoming(room: &mut IncomingRoom, used: Used) -> Vec<Column<'_>> {
    let bases = used.offsets.div_ceil(256);
    let columns: [Column<'_>; INCOMING] = [
        column("sources of entries", 10, used.edges, used.edges, &mut room.sources),
        column("places of entries", 10, used.edges, used.edges, &mut room.places),
        column("bases of entries", 11, bases, bases, &mut room.bases),
        column("short offsets of entries", 11, used.offsets, used.offsets, &mut room.short),
        column("places of long offsets of entries", 11, used.long, used.long, &mut room.long_at),
        column("long offsets of entries", 11, used.long, used.long, &mut room.long_value),
        column("working offsets of entries", 11, used.offsets, 0, &mut room.working),
    ];
    columns.into()
}

/// Cuts long columns: a call that is refused before ROOM is refused with any room.
pub fn shorten(columns: Vec<Column<'_>>) {
    for column in columns {
        column.numbers.cut(1000);
    }
}

/// Fills columns with something, and makes them a few numbers longer than they must be.
pub fn spoil(columns: Vec<Column<'_>>, random: &mut Random) {
    let extra = random.below(4) as usize;
    for column in columns {
        column.numbers.spoil(extra, 1 + random.below(255) as u8);
    }
}

/// Cuts columns to what they need, and no longer.
pub fn fit(columns: Vec<Column<'_>>) {
    for column in columns {
        column.numbers.cut(column.need);
    }
}

/// Makes one column one shorter than its need: its buffer, if there is such a column and it is needed.
pub fn one_short(columns: Vec<Column<'_>>, which: usize) -> Option<u64> {
    let column = columns.into_iter().nth(which).filter(|column| column.need > 0)?;
    column.numbers.cut(column.need - 1);
    Some(column.buffer)
}

/// Cuts one to three columns below their needs; the lowest buffer so cut, if there was any need.
pub fn cut(mut columns: Vec<Column<'_>>, random: &mut Random) -> Option<u64> {
    let mut lowest = None;
    for _ in 0..1 + random.below(3) {
        let which = random.below(columns.len() as u64) as usize;
        let column = &mut columns[which];
        if column.need == 0 {
            continue;
        }
        let left = if random.chance(2) { column.need - 1 } else { random.below(column.need as u64) as usize };
        column.numbers.cut(left);
        lowest = Some(lowest.map_or(column.buffer, |buffer: u64| buffer.min(column.buffer)));
    }
    lowest
}

/// Everything behind what a call left is zero.
pub fn ends_are_zero(columns: Vec<Column<'_>>) -> Outcome {
    match columns.iter().find(|column| !column.numbers.is_zero_from(column.left)) {
        None => Ok(()),
        Some(column) => Err(format!("{}: not zero from {} on", column.name, column.left)),
    }
}
