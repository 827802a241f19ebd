//! The columns that a build is lent, and those of the incoming side: how long they must be, and the calls that fill them.
use crate::ffi;
use crate::graph::Columns;
use crate::input::{Input, Parts, References, Schema};

/// The most places that a build accepts, and the most names: document 01's limits.
const PLACES: u64 = 268_435_456;
const NAMES: usize = 16_777_216;
/// Fields that can have a code.
const CODES: usize = 32_767;

/// Everything that a build writes.
#[derive(Debug, Default)]
pub struct Room {
    /// Every edge's target.
    pub targets: Vec<u32>,
    /// Every edge's label, until it is coded.
    pub labels: Vec<u32>,
    /// The objects of the weak pairs.
    pub weak_from: Vec<u32>,
    /// Their targets.
    pub weak_to: Vec<u32>,
    /// The roots, sorted.
    pub roots: Vec<u32>,
    /// Work space: an offset for each object, and one more.
    pub working: Vec<u64>,
    /// The coded columns.
    pub coded: CodedRoom,
}

/// The columns of buffers 4 to 9, which [`Columns`](crate::Columns) explains, and their work space.
#[derive(Debug, Default)]
pub struct CodedRoom {
    /// Every 256th offset.
    pub bases: Vec<u64>,
    /// Every offset above its base.
    pub short: Vec<u16>,
    /// The places of the long offsets.
    pub long_at: Vec<u32>,
    /// The long offsets.
    pub long_value: Vec<u64>,
    /// The label of each field code.
    pub fields: Vec<u32>,
    /// The code of each name.
    pub table: Vec<u16>,
    /// The edges whose labels have no code.
    pub escape_at: Vec<u64>,
    /// Their labels.
    pub escape_label: Vec<u32>,
    /// Every edge's label in two bytes.
    pub codes: Vec<u16>,
    /// Work space: how often each field occurs.
    pub counting: Vec<u64>,
    /// Work space: the fields by their use.
    pub ranking: Vec<u64>,
}

/// Everything that inverting a graph writes: its incoming side, which [`IncomingColumns`](crate::IncomingColumns) explains, and work space.
#[derive(Debug, Default)]
pub struct IncomingRoom {
    /// Every entry's object that refers.
    pub sources: Vec<u32>,
    /// Every entry's place in the target column.
    pub places: Vec<u32>,
    /// Every 256th offset of the entries.
    pub bases: Vec<u64>,
    /// Every offset above its base.
    pub short: Vec<u16>,
    /// The places of the long offsets.
    pub long_at: Vec<u32>,
    /// The long offsets.
    pub long_value: Vec<u64>,
    /// Work space: an offset for each object, and one more.
    pub working: Vec<u64>,
}

/// A block has long offsets only where 65,535 edges and more lie between its ends, and at most 255.
fn most_long(offsets: usize, edges: usize) -> usize {
    offsets.min(edges / 65_535 * 255)
}

fn range(starts: &[u32], ends: &[u32], class: usize) -> std::ops::Range<usize> {
    let at = |column: &[u32]| column.get(class).map_or(0, |&at| at as usize);
    at(starts)..at(ends)
}

/// Every slot, element and static, and a loader for each class: what the raw route counts, and no less than the copied route's.
fn most_places(input: &Input<'_>) -> u64 {
    let (classes, objects) = (&input.schema.classes, &input.objects);
    let slots: Vec<u64> = (0..classes.ids.len()).map(|class| range(classes.slot_starts, classes.slot_ends, class).len() as u64).collect();
    let statics = (0..classes.ids.len()).map(|class| range(classes.static_starts, classes.static_ends, class).len() as u64);
    let parts = objects.kinds.iter().zip(objects.classes).zip(objects.lengths).map(|((&kind, &class), &length)| match kind {
        0 => slots.get(class as usize).copied().unwrap_or(0),
        1 => u64::from(length),
        _ => 0,
    });
    classes.ids.len() as u64 + statics.sum::<u64>() + parts.sum::<u64>()
}

/// The weak slots of all instances: no pair comes from another slot.
fn most_weak(input: &Input<'_>) -> u64 {
    if input.policy.soft && input.policy.weak {
        return 0;
    }
    let Schema { classes, slots, .. } = &input.schema;
    let flags = |class: usize| slots.weak.get(range(classes.slot_starts, classes.slot_ends, class)).unwrap_or_default();
    let flagged = |class: usize| flags(class).iter().filter(|&&flag| flag != 0).count() as u64;
    let weak: Vec<u64> = (0..classes.ids.len()).map(flagged).collect();
    let of = |(&kind, &class): (&u8, &u32)| if kind == 0 { weak.get(class as usize).copied().unwrap_or(0) } else { 0 };
    input.objects.kinds.iter().zip(input.objects.classes).map(of).sum()
}

/// How many ids the references can hold, unless the parts of objects share them. The copied route has no place for a null.
fn held(references: &References<'_>) -> u64 {
    match references {
        References::Copied { codes, .. } => codes.iter().filter(|&&code| code != 0).count() as u64,
        References::Raw { bytes, id_size, .. } => (bytes.len() / (*id_size).max(1)) as u64,
    }
}

impl Room {
    /// Room for an input. The first try trusts that objects share no ids and that bodies hold their slots, which keeps a damaged length from
    /// asking for memory; a second, after ROOM, which only a sound input is answered, has all that it can need.
    pub fn for_input(input: &Input<'_>, second: bool) -> Room {
        let held = held(&input.references) + input.schema.statics.types.len() as u64 + input.schema.classes.ids.len() as u64;
        let most = if second { most_places(input) } else { held };
        let places = most.min(PLACES) as usize;
        let weak = most_weak(input).min(most) as usize;
        Room {
            targets: vec![0; places],
            labels: vec![0; places],
            weak_from: vec![0; weak],
            weak_to: vec![0; weak],
            roots: vec![0; input.roots.len()],
            working: vec![0; input.objects.ids.len() + 1],
            coded: CodedRoom::new(input.objects.ids.len() + 1, places, most, input.schema.names),
        }
    }

    /// One build into these columns, whatever they hold: the numbers that it says, after how many they are.
    pub fn build(&mut self, input: &Input<'_>, account: &mut [[u64; 3]; 4]) -> [u64; 9] {
        let Input { objects, schema: Schema { classes, slots, statics, names }, references, roots, policy } = *input;
        let Room { targets, labels, weak_from, weak_to, roots: roots_out, working, coded } = self;
        let CodedRoom { bases, short, long_at, long_value, fields, table, escape_at, escape_label, codes: edge_codes, .. } = coded;
        let (counting, ranking, mut answer) = (&mut coded.counting, &mut coded.ranking, [0; 9]);
        // An argument line for each table.
        match references {
            #[rustfmt::skip]
            References::Copied { codes, escape_places, escape_ids, base, starts } => ffi::yokefathom_build_copied(
                objects.ids, objects.kinds, objects.classes, objects.lengths,
                classes.ids, classes.loaders, classes.dumped, classes.kinds,
                classes.slot_starts, classes.slot_ends, classes.static_starts, classes.static_ends,
                slots.offsets, slots.labels, slots.weak, statics.names, statics.types, statics.values, names,
                codes, escape_places, escape_ids, base, starts,
                roots, policy.soft, policy.weak,
                targets, labels, weak_from, weak_to, roots_out, working, account,
                bases, short, long_at, long_value, fields, table, escape_at, escape_label, edge_codes, counting, ranking,
                &mut answer,
            ),
            #[rustfmt::skip]
            References::Raw { bytes, id_size, starts, lengths } => ffi::yokefathom_build_raw(
                objects.ids, objects.kinds, objects.classes, objects.lengths,
                classes.ids, classes.loaders, classes.dumped, classes.kinds,
                classes.slot_starts, classes.slot_ends, classes.static_starts, classes.static_ends,
                slots.offsets, slots.labels, slots.weak, statics.names, statics.types, statics.values, names,
                bytes, id_size, starts, lengths,
                roots, policy.soft, policy.weak,
                targets, labels, weak_from, weak_to, roots_out, working, account,
                bases, short, long_at, long_value, fields, table, escape_at, escape_label, edge_codes, counting, ranking,
                &mut answer,
            ),
        }
        answer
    }
}

impl CodedRoom {
    /// Room for the columns of a plain graph.
    pub fn for_parts(schema: &Schema<'_>, parts: &Parts<'_>) -> CodedRoom {
        CodedRoom::new(parts.offsets.len(), parts.labels.len(), u64::MAX, schema.names)
    }

    /// One `from_parts` into these columns, whatever they hold: the numbers that it says, after how many they are.
    pub fn take_parts(&mut self, schema: &Schema<'_>, parts: &Parts<'_>) -> [u64; 9] {
        let Schema { classes, slots, statics, names } = *schema;
        let CodedRoom { bases, short, long_at, long_value, fields, table, escape_at, escape_label, codes, counting, ranking } = self;
        let mut answer = [0; 9];
        // An argument line for each table.
        #[rustfmt::skip]
        ffi::yokefathom_from_parts(
            classes.ids, classes.loaders, classes.dumped, classes.kinds,
            classes.slot_starts, classes.slot_ends, classes.static_starts, classes.static_ends,
            slots.offsets, slots.labels, slots.weak, statics.names, statics.types, statics.values, names,
            parts.offsets, parts.targets, parts.labels, parts.weak_from, parts.weak_to, parts.roots, parts.dangling,
            bases, short, long_at, long_value, fields, table, escape_at, escape_label, codes, counting, ranking,
            &mut answer,
        );
        answer
    }

    /// Labels are escaped where the names are more than the codes, or behind 32,767 empty elements.
    fn new(offsets: usize, edges: usize, elements: u64, names: usize) -> CodedRoom {
        let names = names.min(NAMES);
        let long = most_long(offsets, edges);
        let escapes = if names < CODES { edges.min((elements / 32_767).min(PLACES) as usize) } else { edges };
        CodedRoom {
            bases: vec![0; offsets.div_ceil(256)],
            short: vec![0; offsets],
            long_at: vec![0; long],
            long_value: vec![0; long],
            fields: vec![0; (names + 1).min(CODES)],
            table: vec![0; names + 2],
            escape_at: vec![0; escapes],
            escape_label: vec![0; escapes],
            codes: vec![0; edges],
            counting: vec![0; names + 2],
            ranking: vec![0; names + 2],
        }
    }
}

impl IncomingRoom {
    /// Room for an entry of each edge. There is an offset where there is no object, too.
    pub fn for_columns(columns: &Columns<'_>) -> IncomingRoom {
        let (offsets, entries) = (columns.short.len().max(1), columns.targets.len());
        let long = most_long(offsets, entries);
        IncomingRoom {
            sources: vec![0; entries],
            places: vec![0; entries],
            bases: vec![0; offsets.div_ceil(256)],
            short: vec![0; offsets],
            long_at: vec![0; long],
            long_value: vec![0; long],
            working: vec![0; offsets],
        }
    }

    /// Inverts a graph into these columns, whatever they hold: the numbers that it says, after how many they are.
    pub fn invert(&mut self, columns: &Columns<'_>) -> [u64; 4] {
        let Columns { bases, short, long_at, long_value, codes, targets, fields, escape_at, escape_label, .. } = *columns;
        let IncomingRoom { sources, places, bases: in_bases, short: in_short, long_at: in_long_at, long_value: in_long_value, working } =
            self;
        let mut answer = [0; 4];
        // An argument line for each table.
        #[rustfmt::skip]
        ffi::yokefathom_invert(
            bases, short, long_at, long_value, codes, targets, fields, escape_at, escape_label,
            sources, places, in_bases, in_short, in_long_at, in_long_value, working,
            &mut answer,
        );
        answer
    }
}
