//! One case, by one route, on both sides: the refusal or every column, the zeros behind them, ROOM, the questions, and the incoming side.
use midden::graph as original;
use yokefathom::compare::{Room, Whole};
use yokefathom::{ARRAY_ELEMENT, Account, Graph, LOADER, Refusal};

use crate::case::{Case, Route};
use crate::each;
use crate::handed;
use crate::incoming;
use crate::lent::{self, Outcome, Used};
use crate::oracle;
use crate::policies;
use crate::random::Random;
use crate::tally::Tally;
use crate::verdict;

pub fn same<T: PartialEq + std::fmt::Debug>(what: &str, ours: T, theirs: T) -> Outcome {
    if ours == theirs {
        return Ok(());
    }
    let text = format!("{what}: ours {ours:?}, expected {theirs:?}");
    Err(text.chars().take(400).collect())
}

/// The numbers that a call says; the answer is zero behind them.
pub fn said(answer: &[u64]) -> Result<Vec<u64>, String> {
    let (says, rest) = answer[1..].split_at(answer[0] as usize);
    match rest.iter().all(|&number| number == 0) {
        true => Ok(says.to_vec()),
        false => Err(format!("answer {answer:?} is not zero behind its numbers")),
    }
}

/// One build into columns that are full of something: what it says.
fn build_spoiled(case: &Case, route: Route, room: &mut Room, random: &mut Random) -> Result<(Vec<u64>, Account), String> {
    let mut account = [[random.next(); 3]; 4];
    let says = said(&room.build(&case.input(route), &mut account))?;
    let used = if says[0] == 0 { Used::of(&says, case.ids.len(), case.names) } else { Used::default() };
    lent::ends_are_zero(lent::all(room, used, 0))?;
    if says[0] != 0 {
        same("account of a refusal", account, [[0; 3]; 4])?;
    }
    Ok((says, account.into()))
}

/// Cuts some buffers below their needs: the lowest of them is refused.
fn room_is_refused(case: &Case, route: Route, says: &[u64], places: usize, random: &mut Random, tally: &mut Tally) -> Outcome {
    let mut room = Room::for_input(&case.input(route), true);
    let used = Used::of(says, case.ids.len(), case.names);
    lent::spoil(lent::all(&mut room, used, places), random);
    let Some(lowest) = lent::cut(lent::all(&mut room, used, places), random) else { return Ok(()) };
    tally.refused[9] += 1;
    let (refused, _) = build_spoiled(case, route, &mut room, random)?;
    same("ROOM", refused, vec![9, lowest])
}

pub fn columns(ours: &Graph, theirs: &original::Graph) -> Outcome {
    let (our, their) = (ours.columns(), theirs.shown());
    same("targets", our.targets, theirs.all_targets())?;
    same("weak pairs", ours.weak_edges().collect::<Vec<_>>().as_slice(), theirs.weak_edges())?;
    same("roots", &ours.roots, &theirs.roots)?;
    same("dangling", ours.dangling, theirs.dangling)?;
    same("bases", our.bases, their.bases)?;
    same("short offsets", our.short, their.short)?;
    same("fields", our.fields, their.fields)?;
    same("code table", our.table, their.table)?;
    same("codes", our.codes, their.codes)?;
    let zipped = |at: &[u32], value: &[u64]| -> Vec<(u32, u64)> { at.iter().copied().zip(value.iter().copied()).collect() };
    same("long offsets", zipped(our.long_at, our.long_value).as_slice(), their.long)?;
    let escapes: Vec<(u64, u32)> = our.escape_at.iter().copied().zip(our.escape_label.iter().copied()).collect();
    same("label escapes", escapes.as_slice(), their.escapes)?;
    same("objects", ours.object_count(), theirs.root as usize)?;
    same("edge count", ours.edge_count(), theirs.edge_count())
}

/// Labels worth asking for.
fn labels(names: usize, random: &mut Random) -> Vec<u32> {
    let mut labels: Vec<u32> = match names {
        0..20 => (0..names as u32 + 3).collect(),
        _ => {
            let some: Vec<u32> = (0..12).map(|_| random.below(names as u64 + 3) as u32).collect();
            [some.as_slice(), &[0, 32_766, 32_767, names as u32 - 1, names as u32]].concat()
        }
    };
    labels.extend([LOADER - 1, LOADER, ARRAY_ELEMENT, ARRAY_ELEMENT + 1, ARRAY_ELEMENT + 7, u32::MAX]);
    labels
}

/// `field` and `referent`. Asked the name count, the original finds the loader: there the rule of document 01 is compared with.
pub fn ask_field(ours: &Graph, theirs: &original::Graph, names: usize, object: u32, label: u32, tally: &mut Tally) -> Outcome {
    let refused = |e: Refusal| format!("field {object} {label}: {e}");
    tally.questions += 2;
    let (field, referent) = (ours.field(object, label).map_err(refused)?, ours.referent(object, label).map_err(refused)?);
    same("field, the whole question", Whole(ours.columns()).field(object, label), Ok(field))?;
    same("referent, the whole question", Whole(ours.columns()).referent(object, label), Ok(referent))?;
    if label as usize == names {
        tally.name_count += 1;
        same("field of the name count", field, None)?;
        return same("referent of the name count", referent, theirs.weak_referents(object).next());
    }
    same(&format!("field {object} {label}"), field, theirs.field(object, label))?;
    same(&format!("referent {object} {label}"), referent, theirs.referent(object, label))
}

pub fn ask_label(ours: &Graph, theirs: &original::Graph, object: u32, target: u32, tally: &mut Tally) -> Outcome {
    tally.questions += 1;
    let found = ours.label_of(object, target).map_err(|e| e.to_string())?;
    same("label_of, the whole question", Whole(ours.columns()).label_of(object, target), Ok(found))?;
    same(&format!("label_of {object} {target}"), found, theirs.label_of(object, target))
}

/// What a call that writes an object's edges answers, and leaves in columns of these lengths that were full of something.
fn written(
    lengths: [usize; 2],
    call: impl Fn(&mut [u32], &mut [u32]) -> Result<usize, Refusal>,
) -> (Result<usize, Refusal>, [Vec<u32>; 2]) {
    let [mut targets, mut labels] = lengths.map(|length| vec![u32::MAX; length]);
    (call(&mut targets, &mut labels), [targets, labels])
}

/// All edges of an object by one call: into columns with room and some to spare, and with one of them too short.
fn ask_at_once(ours: &Graph, edges: &[(u32, u32)], object: u32, random: &mut Random, tally: &mut Tally) -> Outcome {
    let count = edges.len();
    let fewer = count.saturating_sub(1);
    let (spare, spare_too) = (random.below(3) as usize, random.below(3) as usize);
    for lengths in [[count + spare, count + spare_too], [fewer, count], [count, fewer]] {
        tally.questions += 1;
        let mut expected = (Err(Refusal::Room(23)), lengths.map(|length| vec![0; length]));
        if lengths.iter().all(|&length| count <= length) {
            expected.0 = Ok(count);
            for (k, &(target, label)) in edges.iter().enumerate() {
                (expected.1[0][k], expected.1[1][k]) = (target, label);
            }
        }
        same("edges at once", written(lengths, |t, l| ours.object_edges(object, t, l)), expected.clone())?;
        same("edges at once, the whole question", written(lengths, |t, l| Whole(ours.columns()).object_edges(object, t, l)), expected)?;
    }
    Ok(())
}

/// An object's span, edges, labels and weak referents.
pub fn ask_edges(ours: &Graph, theirs: &original::Graph, object: u32, random: &mut Random, tally: &mut Tally) -> Outcome {
    let refused = |e: Refusal| format!("object {object}: {e}");
    tally.questions += 5;
    same("span", ours.span(object).map_err(refused)?, theirs.span(object))?;
    same("span, the whole question", Whole(ours.columns()).span(object), Ok(theirs.span(object)))?;
    let weak: Vec<u32> = theirs.weak_referents(object).collect();
    same("weak referents", ours.weak_referents(object).map_err(refused)?, weak.as_slice())?;
    let (our, their) = (ours.edges(object).map_err(refused)?, theirs.edges(object));
    same("length", our.len(), their.len())?;
    same("degree", ours.degree(object), Ok(their.len()))?;
    same("degree, the whole question", Whole(ours.columns()).degree(object), Ok(their.len()))?;
    let pairs: Vec<(u32, u32)> = their.iter().collect();
    same("edges", our.iter().collect::<Vec<_>>(), pairs.clone())?;
    ask_at_once(ours, &pairs, object, random, tally)?;
    for k in 0..their.len() {
        if their.len() > 100 && !random.chance(their.len() as u64 / 20) {
            continue;
        }
        tally.questions += 2;
        same(&format!("coarse {object} {k}"), our.coarse(k).map_err(refused)?, their.coarse(k))?;
        same(&format!("exact {object} {k}"), our.exact(k).map_err(refused)?, their.exact(k))?;
    }
    same("edge behind the last", our.exact(their.len()), Err(Refusal::Index(their.len() as u64)))
}

/// Every question about one object.
fn ask(ours: &Graph, theirs: &original::Graph, names: usize, object: u32, random: &mut Random, tally: &mut Tally) -> Outcome {
    for label in labels(names, random) {
        ask_field(ours, theirs, names, object, label, tally)?;
    }
    let objects = theirs.root;
    for target in (0..objects.min(8)).chain([random.below(u64::from(objects)) as u32, objects, u32::MAX]) {
        ask_label(ours, theirs, object, target, tally)?;
    }
    ask_edges(ours, theirs, object, random, tally)
}

pub fn questions(ours: &Graph, theirs: &original::Graph, names: usize, random: &mut Random, tally: &mut Tally) -> Outcome {
    for object in 0..theirs.root {
        if theirs.root < 40 || random.chance(u64::from(theirs.root) / 20) {
            ask(ours, theirs, names, object, random, tally)?;
        }
    }
    for object in [theirs.root, u32::MAX] {
        let index = Refusal::Index(u64::from(object));
        same("span of no object", ours.span(object), Err(index))?;
        same("field of no object", ours.field(object, 0), Err(index))?;
        same("referent of no object", ours.referent(object, 0), Err(index))?;
        same("label_of of no object", ours.label_of(object, 0), Err(index))?;
        same("weak referents of no object", ours.weak_referents(object), Err(index))?;
        same("edges of no object", written([2, 2], |t, l| ours.object_edges(object, t, l)), (Err(index), [vec![0; 2], vec![0; 2]]))?;
    }
    same("offsets", ours.offsets().collect::<Vec<_>>(), theirs.offsets().collect::<Vec<_>>())?;
    same("labels", ours.all_labels().collect::<Vec<_>>(), theirs.all_labels().collect::<Vec<_>>())
}

/// Counts what a compared graph came to.
pub fn count(graph: &Graph, tally: &mut Tally) {
    tally.edges += graph.edge_count();
    tally.weak += graph.weak_edges().len() as u64;
    tally.long += graph.columns().long_at.len() as u64;
    tally.escapes += graph.columns().escape_at.len() as u64;
    tally.ranked += u64::from(!graph.columns().fields.is_sorted());
}

/// The original holds the ids of objects as its file does, in so many bytes.
fn original_can_express(case: &Case, route: Route) -> bool {
    route == Route::Copied || case.id_size == 8 || case.ids.last().is_none_or(|&id| id <= u64::from(u32::MAX))
}

/// All of it.
pub fn route(case: &Case, route: Route, random: &mut Random, tally: &mut Tally) -> Outcome {
    let refusal = verdict::refusal(case, route);
    let mut room = Room::for_input(&case.input(route), refusal.is_none());
    if refusal.is_some() {
        lent::shorten(lent::all(&mut room, Used::default(), 0));
    }
    lent::spoil(lent::all(&mut room, Used::default(), 0), random);
    let (says, account) = build_spoiled(case, route, &mut room, random)?;
    if let Some((number, place)) = refusal {
        tally.refused[number as usize] += 1;
        return same("refusal", says, vec![number, place]);
    }
    same("answer", says[0], 0)?;
    same("account", account, verdict::account(case, route))?;
    let ours = Graph::build(&case.input(route)).map_err(|e| e.to_string())?;
    same("account again", ours.account, account)?;
    room_is_refused(case, route, &says, verdict::places(case, route) as usize, random, tally)?;
    if !original_can_express(case, route) {
        tally.not_compared += 1;
        return Ok(());
    }
    let theirs = oracle::build(case, route);
    columns(&ours, &theirs)?;
    questions(&ours, &theirs, case.names, random, tally)?;
    incoming::compare(&ours, &theirs, random, tally)?;
    each::compare(&ours, &theirs, case.names, random, tally)?;
    tally.graph(Some(route), case.threads);
    tally.dangling += ours.dangling;
    count(&ours, tally);
    if route == Route::Copied {
        handed::of_a_build(case, &ours, random, tally)?;
    }
    if random.chance(4) {
        policies::every(case, route, tally)?;
    }
    Ok(())
}
