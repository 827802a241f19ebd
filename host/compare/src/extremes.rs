//! The limits of document 01, from few numbers: long columns of zeros that are only measured, and objects that share one part. What is just at a
//! limit would take gigabytes to build, so it is lent no room, and ROOM says that the limit was not passed. The original has no limits.
use yokefathom::compare::{CodedRoom, IncomingRoom, Room};
use yokefathom::{Columns, Parts};

use crate::case::{Case, ROUTES, Route};
use crate::check::{said, same};
use crate::lent::Outcome;
use crate::small;
use crate::tally::Tally;
use crate::verdict;

/// So many objects and as many places each are just the limit.
const SIDE: usize = 16_384;
const OBJECTS: usize = 67_108_864;
const NAMES: usize = 16_777_216;
const MANY: usize = 268_435_456;

fn empty() -> Case {
    Case { id_size: 8, threads: 1, chunks: 1, ..Case::default() }
}

/// So many objects of a kind whose parts are all the same codes and bytes.
fn sharing(objects: usize, kind: u8, held: usize) -> Case {
    Case {
        ids: (1..=objects as u64).collect(),
        kinds: vec![kind; objects],
        classes: vec![0; objects],
        lengths: vec![if kind == 1 { held as u32 } else { 0 }; objects],
        codes: vec![1; held],
        base: 1,
        starts: vec![0; objects],
        bytes: vec![1; 8 * held],
        body_starts: vec![0; objects],
        bodies: vec![if kind == 1 { 8 * held as u32 } else { 0 }; objects],
        names: 1,
        ..empty()
    }
}

fn arrays(objects: usize) -> Case {
    sharing(objects, 1, SIDE)
}

/// Instances of one class. A raw body may be short: every slot is a place all the same.
fn instances(objects: usize) -> Case {
    let mut case = sharing(objects, 0, SIDE);
    let slots: Vec<(u32, u32, bool)> = (0..SIDE as u32).map(|k| (8 * k, 0, false)).collect();
    case.class(0, 0, false, 0, &slots, &[]);
    case
}

/// Dumped classes that share their statics, each with a place for its loader; found, both.
fn classes(count: usize) -> Case {
    let mut case = sharing(count, 3, 0);
    let statics = vec![(0, 2, 1); SIDE - 1];
    case.class(1, 1, true, 0, &[], &statics);
    for id in 2..=count as u64 {
        case.class(id, 1, true, 0, &[], &[]);
        let last = case.static_starts.len() - 1;
        (case.static_starts[last], case.static_ends[last]) = (0, SIDE as u32 - 1);
    }
    case
}

/// Columns of zeros: so many objects, classes, slots, statics and names.
fn zeros(objects: usize, classes: usize, slots: usize, statics: usize, names: usize) -> Case {
    Case {
        ids: vec![0; objects],
        kinds: vec![0; objects],
        classes: vec![0; objects],
        lengths: vec![0; objects],
        starts: vec![0; objects],
        body_starts: vec![0; objects],
        bodies: vec![0; objects],
        class_ids: vec![0; classes],
        loaders: vec![0; classes],
        dumped: vec![0; classes],
        class_kinds: vec![0; classes],
        slot_starts: vec![0; classes],
        slot_ends: vec![0; classes],
        static_starts: vec![0; classes],
        static_ends: vec![0; classes],
        slot_offsets: vec![0; slots],
        slot_labels: vec![0; slots],
        slot_weak: vec![0; slots],
        static_names: vec![0; statics],
        static_types: vec![0; statics],
        static_values: vec![0; statics],
        names,
        ..empty()
    }
}

/// An array just at the length limit, and one element longer; its part is not there.
fn long_array(length: usize) -> Case {
    let mut case = sharing(1, 1, 0);
    case.lengths[0] = length as u32;
    case
}

type Make = fn(usize) -> Case;

/// Each limit: what has it, where it lies, and a case with so many.
const LIMITS: [(&str, usize, Make); 9] = [
    ("arrays that share their elements", SIDE, arrays),
    ("instances that share their references", SIDE, instances),
    ("classes that share their statics", SIDE, classes),
    ("objects", OBJECTS, |n| zeros(n, 0, 0, 0, 0)),
    ("classes", OBJECTS, |n| zeros(0, n, 0, 0, 0)),
    ("slots", MANY, |n| zeros(0, 0, n, 0, 0)),
    ("statics", MANY, |n| zeros(0, 0, 0, n, 0)),
    ("names", NAMES, |n| zeros(0, 0, 0, 0, n)),
    ("array length", MANY, long_array),
];

/// A build that is lent nothing: refused by the rules, or else for want of room.
fn lent_nothing(case: &Case, route: Route, tally: &mut Tally) -> Outcome {
    let expected = match verdict::refusal(case, route) {
        Some((number, place)) => vec![number, place],
        None => vec![9, if verdict::places(case, route) > 0 { 1 } else { 4 }],
    };
    let says = said(&Room::default().build(&case.input(route), &mut [[1; 3]; 4]))?;
    tally.refused[expected[0] as usize] += 1;
    same("refusal", says, expected)
}

/// As many labels handed over as the limit, and one more. They are all wrong, but PLACES comes first.
fn handed(labels: usize, tally: &mut Tally) -> Outcome {
    let case = small::worked();
    let parts = Parts { offsets: &[1], labels: &vec![0; labels], ..Parts::default() };
    let expected = verdict::handed(&case, &parts).expect("a refusal");
    let says = said(&CodedRoom::default().take_parts(&case.schema(), &parts))?;
    tally.handed_refused(&expected);
    same("refusal of from_parts", says, expected)
}

/// Finished columns of a graph without an edge.
const EDGELESS: Columns<'static> = Columns {
    targets: &[],
    weak_from: &[],
    weak_to: &[],
    bases: &[0],
    short: &[0],
    long_at: &[],
    long_value: &[],
    fields: &[0],
    table: &[],
    escape_at: &[],
    escape_label: &[],
    codes: &[],
};

/// A graph inverted into nothing: refused at an object beyond the limits, or else for want of room.
fn inverted(graph: &Columns<'_>, tally: &mut Tally) -> Outcome {
    let expected = match verdict::unreadable(graph) {
        Some(object) => vec![12, object],
        None => vec![9, if graph.targets.is_empty() { 11 } else { 10 }],
    };
    tally.incoming_refused[expected[0] as usize] += 1;
    same("refusal of invert", said(&IncomingRoom::default().invert(graph))?, expected)
}

/// So many objects without an edge.
fn inverted_objects(objects: usize, tally: &mut Tally) -> Outcome {
    let (bases, short) = (vec![0; objects / 256 + 1], vec![0; objects + 1]);
    inverted(&Columns { bases: &bases, short: &short, ..EDGELESS }, tally)
}

/// One object that holds itself so many times.
fn inverted_edges(edges: usize, tally: &mut Tally) -> Outcome {
    let (targets, codes) = (vec![0; edges], vec![0; edges]);
    let offsets = Columns { short: &[0, u16::MAX], long_at: &[1], long_value: &[edges as u64], ..EDGELESS };
    inverted(&Columns { targets: &targets, codes: &codes, ..offsets }, tally)
}

/// Each limit, or for a short run the first alone, at it and one over; how many differences there are.
pub fn run(all: bool, tally: &mut Tally) -> u64 {
    let mut differences = 0;
    let mut tell = |what: String, outcome: Outcome| {
        if let Err(difference) = outcome {
            println!("{what}: {difference}");
            differences += 1;
        }
    };
    let limits = if all { &LIMITS[..] } else { &LIMITS[..1] };
    for &(what, limit, make) in limits {
        for count in [limit, limit + 1] {
            let case = make(count);
            for route in ROUTES {
                tell(format!("{count} {what}, {route:?}"), lent_nothing(&case, route, tally));
            }
        }
    }
    for labels in [MANY, MANY + 1] {
        tell(format!("{labels} labels handed over"), handed(labels, tally));
    }
    for more in if all { 0..2 } else { 0..0 } {
        tell(format!("{} objects inverted", OBJECTS + more), inverted_objects(OBJECTS + more, tally));
        tell(format!("{} edges inverted", MANY + more), inverted_edges(MANY + more, tally));
    }
    differences
}
