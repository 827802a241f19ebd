//! Random sound cases, cases at the boundaries, and damage.
use std::collections::BTreeSet;

use crate::case::Case;
use crate::random::Random;

#[derive(Clone, Copy, Debug, PartialEq, Eq)]
pub enum Shape {
    /// Up to a dozen objects, everything at random.
    Small,
    /// Hundreds of objects: several blocks of offsets.
    Blocks,
    /// About 32,767 fields: on both sides of the limit of codes.
    Fields,
    /// Gaps between elements about 32,767.
    Gaps,
    /// Differences of offsets about 65,535.
    Offsets,
}

/// Which shapes the seeds have.
#[derive(Clone, Copy, Debug, PartialEq, Eq)]
pub enum Mix {
    /// A large one in eleven seeds.
    Wide,
    /// A large one in a hundred seeds, for many graphs in little time.
    Quick,
}

impl Shape {
    /// Mostly small ones.
    pub fn of_seed(seed: u64, mix: Mix) -> Shape {
        match (seed % 100, mix) {
            (0, Mix::Quick) if seed % 1000 > 200 => Shape::Blocks,
            (1.., Mix::Quick) => Shape::Small,
            (0, Mix::Quick) => [Shape::Fields, Shape::Gaps, Shape::Offsets][(seed / 100 % 10) as usize % 3],
            (0, Mix::Wide) => Shape::Fields,
            (1, Mix::Wide) => Shape::Gaps,
            (2, Mix::Wide) => Shape::Offsets,
            (3..=8, Mix::Wide) => Shape::Blocks,
            (_, Mix::Wide) => Shape::Small,
        }
    }
}

/// Threads of the original: two to five for one seed in four, of each shape, for the others one.
fn threads(seed: u64) -> usize {
    let spread = seed + seed / 100;
    if spread % 4 == 3 { 2 + (spread / 4 % 4) as usize } else { 1 }
}

/// Rising ids, by one of several styles.
fn ids(random: &mut Random, count: usize, most: u64) -> Vec<u64> {
    let mut ids = BTreeSet::new();
    let style = random.below(5);
    let mut at = match random.below(3) {
        0 => 8 * (1 + random.below(100)),
        1 => 1 + random.below(most / 2),
        _ => 8 * (1 + random.below(most / 65_536)),
    };
    while ids.len() < count {
        ids.insert(at);
        at = match style {
            0 => at.saturating_add(8),
            1 => at.saturating_add(8 * (1 + random.below(5))),
            2 => at.saturating_add(1 + random.below(20)),
            3 => 1 + random.below(most),
            _ => at.saturating_add(if random.chance(6) { 8 * (65_530 + random.below(12)) } else { 8 }),
        };
        if at > most || ids.contains(&at) {
            at = 1 + random.below(most);
        }
    }
    if count > 0 && random.chance(8) {
        ids.pop_last();
        ids.insert(most);
    }
    ids.into_iter().collect()
}

/// A reference: null, an object, or an id that no object has.
fn reference(random: &mut Random, ids: &[u64], most: u64) -> u64 {
    match random.below(10) {
        0 | 1 => 0,
        2 => 1 + random.below(most - 1),
        3 if !ids.is_empty() => random.pick(ids).saturating_add(random.below(9)).min(most),
        _ if ids.is_empty() => 1 + random.below(most - 1),
        _ => random.pick(ids),
    }
}

fn put(body: &mut [u8], offset: usize, id: u64, size: usize) {
    body[offset..offset + size].copy_from_slice(&id.to_be_bytes()[8 - size..]);
}

fn slots(random: &mut Random, names: u64, size: u32, all: bool) -> Vec<(u32, u32, bool)> {
    let count = match names {
        _ if all => names - random.below(3),
        0 => 0,
        _ => random.below(6),
    };
    let mut offset = random.below(5) as u32;
    (0..count)
        .map(|k| {
            let label = if all { k } else { random.below(names) } as u32;
            let slot = (offset, label, !all && random.chance(3));
            // Slots may overlap: only their offsets must rise.
            offset += if all || !random.chance(4) { size } else { 1 + random.below(9) as u32 };
            slot
        })
        .collect()
}

fn statics(random: &mut Random, names: u64, ids: &[u64], most: u64) -> Vec<(u32, u8, u64)> {
    let count = if names == 0 { 0 } else { random.below(5) };
    (0..count)
        .map(|_| {
            let kind = random.pick(&[2, 2, 2, 4, 5, 6, 7, 8, 9, 10, 11]);
            let value = if kind == 2 { reference(random, ids, most) } else { random.below(2) };
            (random.below(names) as u32, kind, value)
        })
        .collect()
}

/// An array's elements at the boundaries of its shape.
fn elements(random: &mut Random, shape: Shape, ids: &[u64], most: u64, first: bool) -> Vec<u64> {
    match shape {
        Shape::Gaps => {
            let mut all = Vec::new();
            for _ in 0..1 + random.below(4) {
                let gap = if random.chance(4) { random.below(5) } else { 32_765 + random.below(5) };
                all.resize(all.len() + gap as usize, 0);
                all.push(if random.chance(5) { 3 } else { random.pick(ids) });
                // A label far behind an escape.
                for _ in 0..if random.chance(3) { random.below(100) } else { 0 } {
                    all.resize(all.len() + random.pick(&[0, 0, 0, 1, 7]), 0);
                    all.push(random.pick(ids));
                }
            }
            all
        }
        Shape::Offsets if first || random.chance(200) => {
            let id = random.pick(ids);
            vec![id; 65_533 + random.below(5) as usize]
        }
        _ => (0..random.below(8)).map(|_| reference(random, ids, most)).collect(),
    }
}

pub fn case(seed: u64, shape: Shape) -> Case {
    let random = &mut Random::new(seed);
    let mut case = Case { id_size: random.pick(&[4, 8]), threads: threads(seed), ..Case::default() };
    case.chunks = 1 + random.below(4) as usize;
    (case.soft, case.weak) = (random.chance(2), random.chance(2));
    let most = if case.id_size == 4 { u64::from(u32::MAX) } else { u64::MAX };
    let count = match shape {
        Shape::Small => random.below(12),
        Shape::Blocks => 200 + random.below(700),
        Shape::Fields | Shape::Gaps => 2 + random.below(4),
        Shape::Offsets => 2 + random.below(600),
    } as usize;
    let ids = ids(random, count, most);
    let mut kinds: Vec<u8> = (0..count).map(|_| random.pick(&[0, 0, 0, 1, 1, 2, 3, 3])).collect();
    match shape {
        Shape::Gaps | Shape::Offsets => kinds[0] = 1,
        Shape::Fields => (kinds[0], kinds[count - 1]) = (0, 3),
        _ => {}
    }
    let names = if shape == Shape::Fields { random.pick(&[32_765, 32_766, 32_767, 32_768, 33_000, 40_000]) } else { random.below(9) };
    case.names = names as usize;
    let class_count = random.below(7) as usize + usize::from(shape == Shape::Fields);
    let mut taken = BTreeSet::new();
    for class in 0..class_count {
        let dumped = random.chance(2);
        let at = random.below(count as u64) as usize;
        let free = count > 0 && (!dumped || (kinds[at] == 3 && taken.insert(at)));
        let stranger = if random.chance(3) { 0 } else { 1 + random.below(most - 1) };
        let id = match free {
            true => ids[at],
            false if ids.contains(&stranger) => 0,
            false => stranger,
        };
        let loader = reference(random, &ids, most);
        let all = shape == Shape::Fields && class == 0;
        let (slots, statics) = (slots(random, names, case.id_size as u32, all), statics(random, names, &ids, most));
        let kind = random.below(5) as u8;
        case.class(id, loader, dumped, kind, &slots, &statics);
        // Ranges may be shared.
        if class > 0 && random.chance(6) {
            (case.slot_starts[class], case.slot_ends[class]) = (case.slot_starts[class - 1], case.slot_ends[class - 1]);
        }
    }
    let size = case.id_size;
    for at in 0..count {
        let kind = if kinds[at] == 0 && class_count == 0 { 2 } else { kinds[at] };
        let all = shape == Shape::Fields && at == 0;
        let class = if all { 0 } else { random.below(class_count.max(1) as u64) as u32 };
        let mut body = Vec::new();
        if kind == 0 {
            let slots: Vec<usize> = case.slots_of(class as usize).map(|k| case.slot_offsets[k] as usize).collect();
            body.resize(slots.last().map_or(0, |last| last + size), 0);
            for &offset in &slots {
                let id = if all { random.pick(&ids) } else { reference(random, &ids, most) };
                put(&mut body, offset, id, size);
            }
            match random.below(4) {
                0 if !all => body.truncate(random.below(body.len() as u64 + 1) as usize),
                1 => body.extend([7; 3]),
                _ => {}
            }
        } else if kind == 1 {
            let held = elements(random, shape, &ids, most, at == 0);
            body = held.iter().flat_map(|id| id.to_be_bytes()[8 - size..].to_vec()).collect();
        }
        case.object(ids[at], kind, class, &body);
        if kind == 2 {
            case.lengths[at] = random.pick(&[0, 1, 5, 300, 1 << 30, u32::MAX]);
        }
    }
    let first = ids.first().copied().unwrap_or(0);
    let base = match random.below(4) {
        0 => 0,
        1 => first & !7,
        2 => first,
        _ => random.below(most),
    };
    case.copy_ids(base);
    case.roots = (0..if count == 0 { 0 } else { random.below(6) }).map(|_| random.below(count as u64) as u32).collect();
    case
}

/// Breaks a case, or not quite, in one to three places.
pub fn damage(case: &mut Case, random: &mut Random) {
    for _ in 0..1 + random.below(3) {
        damage_once(case, random);
    }
}

/// One entry of a column changed, or the column made longer or shorter by one.
pub fn hit<T: Copy>(column: &mut Vec<T>, random: &mut Random, values: &[T]) {
    if column.is_empty() || random.chance(12) {
        match random.chance(2) {
            true => column.push(values[0]),
            false => drop(column.pop()),
        }
        return;
    }
    let at = random.below(column.len() as u64) as usize;
    column[at] = if random.chance(3) { column[random.below(column.len() as u64) as usize] } else { random.pick(values) };
}

/// The same with a number just below, at or above a bound, before the other values.
pub fn hit_near<T: Copy + From<u32>>(column: &mut Vec<T>, random: &mut Random, bound: usize, others: &[T]) {
    let near = (bound as u64 + random.below(3)).saturating_sub(1) as u32;
    hit(column, random, &[&[T::from(near)], others].concat());
}

fn damage_once(case: &mut Case, random: &mut Random) {
    let any = random.next();
    let (ids, classes, slots, statics) = (case.ids.len(), case.class_ids.len(), case.slot_labels.len(), case.static_names.len());
    let names = case.names;
    match random.below(30) {
        0 => hit(&mut case.ids, random, &[0, 1, u64::MAX, any]),
        1 => hit(&mut case.kinds, random, &[0, 1, 2, 3, 4, 255]),
        2 => hit_near(&mut case.classes, random, classes, &[u32::MAX]),
        3 => hit(&mut case.lengths, random, &[0, 1, 268_435_456, 268_435_457, u32::MAX]),
        4 => {
            let id = case.ids.get(random.below(ids as u64) as usize).copied().unwrap_or(5);
            hit(&mut case.class_ids, random, &[id, 0])
        }
        5 => hit(&mut case.loaders, random, &[0, any]),
        6 => hit(&mut case.dumped, random, &[0, 1, 2]),
        7 => hit(&mut case.class_kinds, random, &[0, 1, 2, 3, 4, 5]),
        8 => hit_near(&mut case.slot_starts, random, slots, &[0, u32::MAX]),
        9 => hit_near(&mut case.slot_ends, random, slots, &[0, u32::MAX]),
        10 => hit_near(&mut case.static_starts, random, statics, &[0, u32::MAX]),
        11 => hit_near(&mut case.static_ends, random, statics, &[0, u32::MAX]),
        12 => hit(&mut case.slot_offsets, random, &[0, 1, u32::MAX]),
        13 => hit_near(&mut case.slot_labels, random, names, &[0, u32::MAX]),
        14 => hit(&mut case.slot_weak, random, &[0, 1, 2]),
        15 => hit_near(&mut case.static_names, random, names, &[0, u32::MAX]),
        16 => hit(&mut case.static_types, random, &[2, 3, 1, 4, 11, 12, 0]),
        17 => hit(&mut case.static_values, random, &[0, any]),
        18 => case.names = random.pick(&[0, names.saturating_sub(1), 40_000, 16_777_217, usize::MAX]),
        19 => hit_near(&mut case.roots, random, ids, &[u32::MAX]),
        20 => hit(&mut case.codes, random, &[0, 1, u32::MAX, u32::MAX - 1, any as u32]),
        21 => hit_near(&mut case.escape_places, random, case.codes.len(), &[0, u64::MAX]),
        22 => hit(&mut case.escape_ids, random, &[0, any]),
        23 => case.base = random.pick(&[0, u64::MAX, u64::MAX - 64, any]),
        24 => hit_near(&mut case.starts, random, case.codes.len(), &[0, u32::MAX]),
        25 => case.bytes.truncate(random.below(case.bytes.len() as u64 + 1) as usize),
        26 => case.id_size = random.pick(&[0, 4, 8, 2, usize::MAX]),
        27 => hit_near(&mut case.body_starts, random, case.bytes.len(), &[0, u64::MAX]),
        28 => hit(&mut case.bodies, random, &[0, 1, u32::MAX]),
        _ => {
            let at = random.below(case.codes.len() as u64) as usize;
            case.codes.truncate(at)
        }
    }
}

/// Plain columns of their own.
#[derive(Clone, Debug, Default)]
pub struct OwnParts {
    pub offsets: Vec<u64>,
    pub targets: Vec<u32>,
    pub labels: Vec<u32>,
    pub weak_from: Vec<u32>,
    pub weak_to: Vec<u32>,
    pub roots: Vec<u32>,
    pub dangling: u64,
}

impl OwnParts {
    pub fn lent(&self) -> yokefathom::Parts<'_> {
        yokefathom::Parts {
            offsets: &self.offsets,
            targets: &self.targets,
            labels: &self.labels,
            weak_from: &self.weak_from,
            weak_to: &self.weak_to,
            roots: &self.roots,
            dangling: self.dangling,
        }
    }
}

/// Plain columns with any name, loaders anywhere, and elements that rise among them with gaps at the boundaries.
pub fn parts(objects: usize, names: usize, random: &mut Random) -> OwnParts {
    let objects = objects as u64;
    let mut parts = OwnParts { offsets: vec![0], dangling: random.next(), ..OwnParts::default() };
    for _ in 0..objects {
        let mut next = 0u64;
        let most = if random.chance(16) { 150 } else { 9 };
        let kinds = random.pick(&[4, 40]);
        for _ in 0..random.below(most) {
            let label = match random.below(kinds) {
                0 if names > 0 => random.below(names.min(1 << 30) as u64) as u32,
                1 => yokefathom::LOADER,
                _ => {
                    let gap = random.pick(&[0, 0, 1, 5, 32_765, 32_766, 32_767, 32_768, 1 << 29]);
                    let index = next + if most > 9 && !random.chance(30) { gap % 6 } else { gap };
                    if index >= 1 << 31 {
                        continue;
                    }
                    next = index + 1;
                    yokefathom::ARRAY_ELEMENT + index as u32
                }
            };
            parts.labels.push(label);
            parts.targets.push(random.below(objects) as u32);
        }
        parts.offsets.push(parts.labels.len() as u64);
    }
    if objects > 0 {
        let mut weak: Vec<(u32, u32)> =
            (0..random.below(6)).map(|_| (random.below(objects) as u32, random.below(objects) as u32)).collect();
        weak.sort_unstable();
        (parts.weak_from, parts.weak_to) = weak.into_iter().unzip();
        parts.roots = (0..random.below(6)).map(|_| random.below(objects) as u32).collect();
    }
    parts
}

/// Breaks plain columns, or not quite, in one to three places.
pub fn damage_parts(parts: &mut OwnParts, names: usize, random: &mut Random) {
    for _ in 0..1 + random.below(3) {
        damage_parts_once(parts, names, random);
    }
}

fn damage_parts_once(parts: &mut OwnParts, names: usize, random: &mut Random) {
    let near = |random: &mut Random, n: usize| (n as u64 + random.below(3)).saturating_sub(1) as u32;
    let objects = parts.offsets.len().saturating_sub(1);
    let object = near(random, objects);
    match random.below(8) {
        0 | 1 => {
            let edges = u64::from(near(random, parts.labels.len()));
            hit(&mut parts.offsets, random, &[edges, 0, 1, u64::MAX]);
        }
        2 | 3 => {
            let name = near(random, names.min(1 << 30));
            let (loader, element) = (yokefathom::LOADER, yokefathom::ARRAY_ELEMENT);
            hit(&mut parts.labels, random, &[name, loader - 1, loader, element, element + 1, element + 6, u32::MAX]);
        }
        4 => hit(&mut parts.targets, random, &[object, 0, u32::MAX]),
        5 => hit(&mut parts.weak_from, random, &[object, 0, u32::MAX]),
        6 => hit(&mut parts.weak_to, random, &[object, 0, u32::MAX]),
        _ => hit(&mut parts.roots, random, &[object, 0, u32::MAX]),
    }
    // A row more or less of a pair is LENGTHS; let the pairs mostly stay one table.
    if parts.weak_from.len() != parts.weak_to.len() && !random.chance(4) {
        let both = parts.weak_from.len().min(parts.weak_to.len());
        parts.weak_from.truncate(both);
        parts.weak_to.truncate(both);
    }
}
