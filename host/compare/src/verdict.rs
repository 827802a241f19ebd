//! Document 01's refusals 1 to 8 and PARTS, when an object reads back, its account and its places, read from the page once more and written down as
//! plainly as possible. The original checks nothing and has no account, so this is what these are compared with.
use std::collections::HashSet;
use std::ops::Range;

use yokefathom::{ARRAY_ELEMENT, Account, Columns, LOADER, Parts};

use crate::case::{Case, Route};

const OBJECTS: usize = 67_108_864;
const NAMES: usize = 16_777_216;
const MANY: usize = 268_435_456;

fn object_is_wrong(case: &Case, o: usize) -> bool {
    case.ids[o] == 0
        || (o > 0 && case.ids[o] <= case.ids[o - 1])
        || case.kinds[o] > 3
        || (case.kinds[o] == 0 && case.classes[o] as usize >= case.class_ids.len())
        || (case.kinds[o] == 1 && case.lengths[o] as usize > MANY)
}

/// The faults that a class has by itself, whatever the objects are.
fn class_is_wrong(case: &Case, c: usize) -> bool {
    let fits = |start: u32, end: u32, table: usize| start <= end && end as usize <= table;
    if case.dumped[c] > 1
        || case.class_kinds[c] > 4
        || !fits(case.slot_starts[c], case.slot_ends[c], case.slot_labels.len())
        || !fits(case.static_starts[c], case.static_ends[c], case.static_names.len())
    {
        return true;
    }
    let slots = case.slots_of(c);
    let bad_slot = |k: usize| {
        case.slot_labels[k] as usize >= case.names
            || case.slot_weak[k] > 1
            || (k > slots.start && case.slot_offsets[k] <= case.slot_offsets[k - 1])
    };
    let bad_static = |k: usize| case.static_names[k] as usize >= case.names || !matches!(case.static_types[k], 2 | 4..=11);
    slots.clone().any(bad_slot) || case.statics_of(c).any(bad_static)
}

/// A dumped class found at an object of another kind, or where an earlier one was found.
fn class_is_found_badly(case: &Case, c: usize, found: &mut HashSet<u64>) -> bool {
    if case.dumped[c] == 0 {
        return false;
    }
    match case.ids.binary_search(&case.class_ids[c]) {
        Err(_) => false,
        Ok(o) => case.kinds[o] != 3 || !found.insert(case.class_ids[c]),
    }
}

/// The id at a code, if it can be read.
fn id_at(case: &Case, at: usize) -> Option<u64> {
    match case.codes[at] {
        0 => Some(0),
        u32::MAX => {
            let row = case.escape_places.binary_search(&(at as u64)).ok()?;
            Some(case.escape_ids[row]).filter(|&id| id != 0)
        }
        code => case.base.checked_add(8 * (u64::from(code) - 1)).filter(|&id| id != 0),
    }
}

fn copied_is_wrong(case: &Case) -> Option<usize> {
    let places = &case.escape_places;
    (1..places.len())
        .find(|&row| places[row] <= places[row - 1])
        .or_else(|| (0..case.codes.len()).find(|&at| id_at(case, at).is_none()))
        .or_else(|| places.iter().position(|&at| case.codes.get(at as usize).is_none_or(|&code| code != u32::MAX)))
}

fn span_is_wrong(case: &Case, route: Route, o: usize) -> bool {
    let held = match case.kinds[o] {
        0 => case.slots_of(case.classes[o] as usize).len(),
        1 => case.lengths[o] as usize,
        _ => return false,
    };
    match route {
        Route::Copied => case.starts[o] as usize + held > case.codes.len(),
        Route::Raw => {
            let end = u128::from(case.body_starts[o]) + u128::from(case.bodies[o]);
            end > case.bytes.len() as u128 || (case.kinds[o] == 1 && case.bodies[o] as usize != held * case.id_size)
        }
    }
}

fn equal(lengths: &[usize]) -> bool {
    lengths.iter().all(|&length| length == lengths[0])
}

/// The tables of the classes, which `from_parts` is lent too.
fn schema_lengths_are_wrong(case: &Case) -> bool {
    let classes = [
        case.class_ids.len(),
        case.loaders.len(),
        case.dumped.len(),
        case.class_kinds.len(),
        case.slot_starts.len(),
        case.slot_ends.len(),
        case.static_starts.len(),
        case.static_ends.len(),
    ];
    !equal(&classes)
        || !equal(&[case.slot_offsets.len(), case.slot_labels.len(), case.slot_weak.len()])
        || !equal(&[case.static_names.len(), case.static_types.len(), case.static_values.len()])
}

fn lengths_are_wrong(case: &Case, route: Route) -> bool {
    let objects = [case.ids.len(), case.kinds.len(), case.classes.len(), case.lengths.len()];
    let by_route = match route {
        Route::Copied => [case.starts.len(), case.starts.len()],
        Route::Raw => [case.body_starts.len(), case.bodies.len()],
    };
    !equal(&[objects.as_slice(), &by_route].concat())
        || schema_lengths_are_wrong(case)
        || (route == Route::Copied && case.escape_places.len() != case.escape_ids.len())
}

fn limit_is_passed(case: &Case, objects: usize) -> bool {
    objects.max(case.class_ids.len()) > OBJECTS || case.names > NAMES || case.slot_labels.len().max(case.static_names.len()) > MANY
}

/// The refusal of a build before ROOM: number and place.
pub fn refusal(case: &Case, route: Route) -> Option<(u64, u64)> {
    if lengths_are_wrong(case, route) {
        return Some((1, 0));
    }
    if limit_is_passed(case, case.ids.len()) || (route == Route::Raw && ![4, 8].contains(&case.id_size)) {
        return Some((2, 0));
    }
    let at = |number: u64, place: Option<usize>| place.map(|place| (number, place as u64));
    let mut found = HashSet::new();
    at(3, (0..case.ids.len()).find(|&o| object_is_wrong(case, o)))
        .or_else(|| at(4, (0..case.class_ids.len()).find(|&c| class_is_wrong(case, c) || class_is_found_badly(case, c, &mut found))))
        .or_else(|| if route == Route::Copied { at(5, copied_is_wrong(case)) } else { None })
        .or_else(|| at(6, (0..case.ids.len()).find(|&o| span_is_wrong(case, route, o))))
        .or_else(|| at(7, case.roots.iter().position(|&root| root as usize >= case.ids.len())))
        .or_else(|| (places(case, route) > MANY as u64).then_some((8, 0)))
}

fn kept(case: &Case, class: usize, slot: usize) -> bool {
    case.slot_weak[slot] == 0 || if case.class_kinds[class] == 1 { case.soft } else { case.weak }
}

/// Dumped classes that are among the objects.
fn found_classes(case: &Case) -> impl Iterator<Item = usize> {
    (0..case.class_ids.len()).filter(|&c| case.dumped[c] == 1 && case.ids.binary_search(&case.class_ids[c]).is_ok())
}

/// The places that a route counts. Parts of objects may overlap, so that few numbers make many places; therefore nothing is looked up twice.
pub fn places(case: &Case, route: Route) -> u64 {
    let raw = route == Route::Raw;
    let counts: Vec<u64> = match route {
        Route::Raw => Vec::new(),
        Route::Copied => std::iter::once(0).chain(case.codes.iter().scan(0, |sum, &code| Some(add(sum, code != 0)))).collect(),
    };
    let mut places = 0;
    for o in 0..case.ids.len() {
        places += match (case.kinds[o], route) {
            (0, Route::Raw) => case.slots_of(case.classes[o] as usize).len() as u64,
            (1, Route::Raw) => u64::from(case.lengths[o]),
            (0, Route::Copied) => {
                let class = case.classes[o] as usize;
                let held = case.slots_of(class).zip(&case.codes[case.starts[o] as usize..]);
                held.filter(|&(slot, &code)| code != 0 && kept(case, class, slot)).count() as u64
            }
            (1, Route::Copied) => {
                let start = case.starts[o] as usize;
                counts[start + case.lengths[o] as usize] - counts[start]
            }
            _ => 0,
        };
    }
    let found = |id: u64| case.ids.binary_search(&id).is_ok();
    let mut static_places = vec![0];
    for (&kind, &value) in case.static_types.iter().zip(&case.static_values) {
        let sum = *static_places.last().expect("a sum");
        static_places.push(sum + u64::from(kind == 2 && (raw || found(value))));
    }
    for c in found_classes(case) {
        let statics = case.statics_of(c);
        places += static_places[statics.end] - static_places[statics.start] + u64::from(raw || found(case.loaders[c]));
    }
    places
}

fn add(sum: &mut u64, one: bool) -> u64 {
    *sum += u64::from(one);
    *sum
}

/// What became of the references of a sound case: slot, element, static and loader, each by edge, weak and missing.
pub fn account(case: &Case, route: Route) -> Account {
    let mut account = Account::default();
    let found = |id: u64| case.ids.binary_search(&id).is_ok();
    for o in 0..case.ids.len() {
        if case.kinds[o] > 1 {
            continue;
        }
        let class = case.classes[o] as usize;
        let kind = usize::from(case.kinds[o]);
        let slots = if kind == 0 { case.slots_of(class) } else { 0..case.lengths[o] as usize };
        let mut fits = true;
        for (k, slot) in slots.enumerate() {
            let id = match route {
                Route::Copied => id_at(case, case.starts[o] as usize + k).unwrap_or(0),
                Route::Raw => {
                    let offset = if kind == 0 { case.slot_offsets[slot] as usize } else { k * case.id_size };
                    let start = case.body_starts[o] as usize;
                    fits &= offset + case.id_size <= case.bodies[o] as usize;
                    let id = case.bytes.get(start + offset..start + offset + case.id_size).filter(|_| fits);
                    id.map_or(0, |id| id.iter().fold(0, |sum, &byte| sum << 8 | u64::from(byte)))
                }
            };
            if id != 0 {
                let row = if kind == 0 { &mut account.slots } else { &mut account.elements };
                match found(id) {
                    false => row.missing += 1,
                    true if kind == 0 && !kept(case, class, slot) => row.weak += 1,
                    true => row.edges += 1,
                }
            }
        }
    }
    for c in found_classes(case) {
        for k in case.statics_of(c).filter(|&k| case.static_types[k] == 2 && case.static_values[k] != 0) {
            match found(case.static_values[k]) {
                true => account.statics.edges += 1,
                false => account.statics.missing += 1,
            }
        }
        account.loaders.edges += u64::from(found(case.loaders[c]));
    }
    account
}

/// Column 1: offsets start at 0, never fall, and end at the label count.
fn bad_offset(parts: &Parts<'_>) -> Option<usize> {
    let offsets = parts.offsets;
    let Some(last) = offsets.len().checked_sub(1) else { return Some(0) };
    let is_bad = |i: usize| offsets[i] < if i == 0 { 0 } else { offsets[i - 1] } || (i == 0 && offsets[0] != 0);
    (0..=last).find(|&i| is_bad(i) || (i == last && offsets[i] != parts.labels.len() as u64))
}

/// Column 2: labels below the name count, the loader, or elements that strictly rise within an object.
fn bad_label(parts: &Parts<'_>, names: usize) -> Option<usize> {
    for object in parts.offsets.windows(2) {
        let mut last = None;
        for at in object[0] as usize..object[1] as usize {
            let label = parts.labels[at];
            if label >= ARRAY_ELEMENT {
                if last.is_some_and(|last| label <= last) {
                    return Some(at);
                }
                last = Some(label);
            } else if label != LOADER && label as usize >= names {
                return Some(at);
            }
        }
    }
    None
}

/// Column 3: as many targets as labels, each an object.
fn bad_target(parts: &Parts<'_>, objects: usize) -> Option<usize> {
    let both = parts.targets.len().min(parts.labels.len());
    let bad = (0..both).find(|&at| parts.targets[at] as usize >= objects);
    bad.or((parts.targets.len() != parts.labels.len()).then_some(both))
}

/// Column 4: pairs that are sorted, both ends objects.
fn bad_pair(parts: &Parts<'_>, objects: usize) -> Option<usize> {
    let pair = |at: usize| (parts.weak_from[at], parts.weak_to[at]);
    let outside = |(from, to): (u32, u32)| from.max(to) as usize >= objects;
    (0..parts.weak_from.len()).find(|&at| outside(pair(at)) || (at > 0 && pair(at) < pair(at - 1)))
}

/// The refusal of `from_parts` before ROOM: the number and its place; of PARTS the column and the position.
pub fn handed(case: &Case, parts: &Parts<'_>) -> Option<Vec<u64>> {
    let objects = parts.offsets.len().saturating_sub(1);
    if schema_lengths_are_wrong(case) || parts.weak_from.len() != parts.weak_to.len() {
        return Some(vec![1, 0]);
    }
    if limit_is_passed(case, objects) {
        return Some(vec![2, 0]);
    }
    if let Some(class) = (0..case.class_ids.len()).find(|&c| class_is_wrong(case, c)) {
        return Some(vec![4, class as u64]);
    }
    if parts.labels.len() > MANY {
        return Some(vec![8, 0]);
    }
    let at = |column: u64, position: Option<usize>| position.map(|position| vec![10, column, position as u64]);
    at(1, bad_offset(parts))
        .or_else(|| at(2, bad_label(parts, case.names)))
        .or_else(|| at(3, bad_target(parts, objects)))
        .or_else(|| at(4, bad_pair(parts, objects)))
        .or_else(|| at(5, parts.roots.iter().position(|&root| root as usize >= objects)))
}

/// There is one offset more than objects.
pub fn objects_in(graph: &Columns<'_>) -> usize {
    graph.short.len().saturating_sub(1)
}

/// An offset, if it can be read, of a long list that rises.
fn offset_read(graph: &Columns<'_>, at: usize) -> Option<u64> {
    match *graph.short.get(at)? {
        u16::MAX => graph.long_at.binary_search(&u32::try_from(at).ok()?).ok().map(|row| graph.long_value[row]),
        above => graph.bases.get(at / 256)?.checked_add(u64::from(above)),
    }
}

/// Where an object's edges lie, if its offsets can be read, do not fall and end within codes and targets.
pub fn span_read(graph: &Columns<'_>, object: usize) -> Option<Range<usize>> {
    let (start, end) = (offset_read(graph, object)?, offset_read(graph, object + 1)?);
    (start <= end && end <= graph.codes.len().min(graph.targets.len()) as u64).then_some(start as usize..end as usize)
}

/// The label of an edge, if its code and the index expected next give one. Whether a field's or an element's was meant, the code says.
fn label_read(graph: &Columns<'_>, edge: usize, expected: u64) -> Option<u32> {
    let code = graph.codes[edge];
    let label = match code & 0x7FFF {
        0x7FFF => graph.escape_at.binary_search(&(edge as u64)).ok().map(|row| graph.escape_label[row])?,
        gap if code >= 0x8000 => u32::try_from(u64::from(ARRAY_ELEMENT) + expected + u64::from(gap)).ok()?,
        field => *graph.fields.get(usize::from(field))?,
    };
    ((label >= ARRAY_ELEMENT) == (code >= 0x8000)).then_some(label)
}

fn labels_read(graph: &Columns<'_>, edges: Range<usize>) -> bool {
    let mut expected = 0;
    edges.into_iter().all(|edge| match label_read(graph, edge, expected) {
        None => false,
        Some(label) => {
            if label >= ARRAY_ELEMENT {
                expected = u64::from(label - ARRAY_ELEMENT) + 1;
            }
            true
        }
    })
}

fn strictly_rises<T: PartialOrd>(list: &[T]) -> bool {
    list.windows(2).all(|pair| pair[0] < pair[1])
}

/// M-103's COLUMNS: the lowest object that cannot be read back, or lies beyond the limits of objects and places.
pub fn unreadable(graph: &Columns<'_>) -> Option<u64> {
    let objects = objects_in(graph);
    let lists = strictly_rises(graph.long_at)
        && strictly_rises(graph.escape_at)
        && graph.long_at.len() == graph.long_value.len()
        && graph.escape_at.len() == graph.escape_label.len();
    let reads = |object: usize| {
        lists
            && span_read(graph, object).is_some_and(|span| {
                span.end <= MANY
                    && graph.targets[span.clone()].iter().all(|&target| (target as usize) < objects)
                    && labels_read(graph, span)
            })
    };
    (0..objects).find(|&object| object >= OBJECTS || !reads(object)).map(|object| object as u64)
}
