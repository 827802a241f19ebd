//! Every case of a small kind: two objects or fewer and a class, with every kind, reference, flag and policy from a short list; and the worked
//! dump with every one of its numbers replaced by every number of a short list.
use crate::case::Case;

const IDS: [u64; 2] = [16, 24];
/// Null, both objects, and one that no object has.
const HELD: [u64; 4] = [0, 16, 24, 20];

/// The digits of a number whose places have these bases; none when it is past the last.
fn digits(mut number: u64, bases: &[u64]) -> Option<Vec<usize>> {
    let digits = bases.iter().map(|&base| {
        let digit = (number % base) as usize;
        number /= base;
        digit
    });
    let digits = digits.collect();
    (number == 0).then_some(digits)
}

/// Several threads for a fixed share of the cases.
fn threads(number: u64) -> usize {
    if number % 64 == 63 { 2 + (number / 64 % 3) as usize } else { 1 }
}

/// Objects of each kind, holding two references each by the class's two slots or as elements; one policy; the class dumped or not, its loader
/// null, found or missing.
fn objects(number: u64) -> Option<Case> {
    let d = digits(number, &[3, 4, 4, 4, 4, 2, 3, 2, 2, 2, 4])?;
    let mut case = Case { id_size: 8, names: 2, soft: d[7] == 1, weak: d[8] == 1, threads: threads(number), chunks: 1, ..Case::default() };
    let dumped = d[9] == 1 && d[2] == 3 && d[0] == 2;
    case.class(IDS[1], HELD[d[10]], dumped, d[6] as u8, &[(0, 1, d[5] == 1), (8, 0, false)], &[(1, 2, HELD[d[3]])]);
    for object in 0..d[0] {
        let held = if object == 0 { [HELD[d[3]], HELD[d[4]]] } else { [HELD[d[4]], 16] };
        let body: Vec<u8> = held.iter().flat_map(|id| id.to_be_bytes()).collect();
        let kind = d[1 + object] as u8;
        case.object(IDS[object], kind, 0, if kind < 2 { &body } else { &[] });
    }
    case.copy_ids(16);
    case.roots = (0..d[0] as u32).rev().collect();
    Some(case)
}

/// Arrays of up to five elements from the list, and where a body is cut.
fn arrays(number: u64) -> Option<Case> {
    let d = digits(number, &[6, 4, 4, 4, 4, 2])?;
    let mut case = Case { id_size: [4, 8][d[5]], names: 1, threads: threads(number), chunks: 1, ..Case::default() };
    let size = case.id_size;
    let held: Vec<u64> = d[1..5].iter().map(|&k| HELD[k]).chain([24]).take(d[0]).collect();
    let body: Vec<u8> = held.iter().flat_map(|id| id.to_be_bytes()[8 - size..].to_vec()).collect();
    case.class(0, 0, false, 0, &[(0, 0, false), (size as u32, 0, false)], &[]);
    case.object(IDS[0], 1, 0, &body);
    case.object(IDS[1], 0, 0, &body[..body.len() - body.len() % 3]);
    case.copy_ids(16);
    Some(case)
}

/// Document 01's worked dump.
pub fn worked() -> Case {
    let mut case = Case { id_size: 8, names: 3, threads: 1, chunks: 1, ..Case::default() };
    case.class(0, 0, false, 0, &[(0, 0, false)], &[]);
    case.class(0, 0, false, 2, &[(0, 1, true)], &[]);
    case.class(4096, 512, true, 0, &[], &[(2, 2, 256)]);
    let body = |ids: &[u64]| -> Vec<u8> { ids.iter().flat_map(|id| id.to_be_bytes()).collect() };
    case.object(256, 0, 0, &body(&[264]));
    case.object(264, 0, 1, &body(&[256]));
    case.object(512, 1, 0, &body(&[0, 256, 9999]));
    case.object(4096, 3, 0, &[]);
    case.copy_ids(256);
    case.roots = vec![3, 0, 3];
    case
}

/// A column of a case, in which one number is replaced, or of which the last is dropped, or to which one is added.
type Replace = fn(&mut Case, usize, Option<u64>) -> bool;

fn replace<T: Copy>(column: &mut Vec<T>, at: usize, value: Option<T>) -> bool {
    match (value, at < column.len()) {
        (Some(value), true) => column[at] = value,
        (Some(value), false) => column.push(value),
        (None, true) => drop(column.pop()),
        (None, false) => return false,
    }
    true
}

/// A number that stands alone.
fn single<T>(number: &mut T, at: usize, value: Option<T>) -> bool {
    match (at, value) {
        (0, Some(value)) => {
            *number = value;
            true
        }
        _ => false,
    }
}

const COLUMNS: [Replace; 29] = [
    |case, at, value| replace(&mut case.ids, at, value),
    |case, at, value| replace(&mut case.kinds, at, value.map(|v| v as u8)),
    |case, at, value| replace(&mut case.classes, at, value.map(|v| v as u32)),
    |case, at, value| replace(&mut case.lengths, at, value.map(|v| v as u32)),
    |case, at, value| replace(&mut case.class_ids, at, value),
    |case, at, value| replace(&mut case.loaders, at, value),
    |case, at, value| replace(&mut case.dumped, at, value.map(|v| v as u8)),
    |case, at, value| replace(&mut case.class_kinds, at, value.map(|v| v as u8)),
    |case, at, value| replace(&mut case.slot_starts, at, value.map(|v| v as u32)),
    |case, at, value| replace(&mut case.slot_ends, at, value.map(|v| v as u32)),
    |case, at, value| replace(&mut case.static_starts, at, value.map(|v| v as u32)),
    |case, at, value| replace(&mut case.static_ends, at, value.map(|v| v as u32)),
    |case, at, value| replace(&mut case.slot_offsets, at, value.map(|v| v as u32)),
    |case, at, value| replace(&mut case.slot_labels, at, value.map(|v| v as u32)),
    |case, at, value| replace(&mut case.slot_weak, at, value.map(|v| v as u8)),
    |case, at, value| replace(&mut case.static_names, at, value.map(|v| v as u32)),
    |case, at, value| replace(&mut case.static_types, at, value.map(|v| v as u8)),
    |case, at, value| replace(&mut case.static_values, at, value),
    |case, at, value| replace(&mut case.roots, at, value.map(|v| v as u32)),
    |case, at, value| replace(&mut case.codes, at, value.map(|v| v as u32)),
    |case, at, value| replace(&mut case.escape_places, at, value),
    |case, at, value| replace(&mut case.escape_ids, at, value),
    |case, at, value| replace(&mut case.starts, at, value.map(|v| v as u32)),
    |case, at, value| replace(&mut case.bytes, at, value.map(|v| v as u8)),
    |case, at, value| replace(&mut case.body_starts, at, value),
    |case, at, value| replace(&mut case.bodies, at, value.map(|v| v as u32)),
    |case, at, value| single(&mut case.base, at, value),
    |case, at, value| single(&mut case.names, at, value.map(|v| v as usize)),
    |case, at, value| single(&mut case.id_size, at, value.map(|v| v as usize)),
];

/// Numbers at and about every limit that a small dump meets.
const VALUES: [u64; 24] = [
    0, 1, 2, 3, 4, 5, 8, 9, 11, 12, 24, 40, 255, 256, 257, 264, 512, 4096, 9999, 16_777_217, 268_435_457, 0xFFFF_FFFE, 0xFFFF_FFFF,
    0xFFFF_FFFF_FFFF_FFFF,
];

/// The longest column of the worked dump is its bytes.
const LONGEST: u64 = 42;

/// The worked dump with one number replaced, dropped or added; under every policy in turn.
fn damaged(number: u64) -> Option<Option<Case>> {
    let d = digits(number, &[COLUMNS.len() as u64, LONGEST, VALUES.len() as u64 + 1])?;
    let mut case = worked();
    (case.soft, case.weak) = (number / 3 % 2 == 1, number / 6 % 2 == 1);
    let value = VALUES.get(d[2]).copied();
    // One row past the end adds a number; all behind it would add the same one again.
    let fits = d[1] == 0 || COLUMNS[d[0]](&mut worked(), d[1] - 1, None);
    Some((fits && COLUMNS[d[0]](&mut case, d[1], value)).then_some(case))
}

pub fn all() -> impl Iterator<Item = Case> {
    (0..).map_while(objects).chain((0..).map_while(arrays)).chain((0..).map_while(damaged).flatten())
}
