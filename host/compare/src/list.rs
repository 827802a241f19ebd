//! The fixed list: small cases and cases at the boundaries, refusals too, as text for `crates/replay`, with what has to come out.
use std::path::Path;
use std::{fs, io};

use yokefathom::{ARRAY_ELEMENT, LOADER, ReferencePolicy};

use crate::case::{Case, ROUTES, Route};
use crate::check;
use crate::oracle;
use crate::policies;
use crate::random::Random;
use crate::small::worked;
use crate::tally::Tally;
use crate::text::{self, Questions, Rooms, Under};
use crate::verdict;

const ESCAPED: u32 = u32::MAX;
/// An id of four equal bytes, so that a long body of it is short as text.
const EVEN: u64 = 0x1010_1010;

/// The remark before the list's first case, and that case's title, with which the list begins in the two files.
const HEAD: &str = "The list, written by `sh tools/compare list` (docs/DIFFERENCES.md).";
const FIRST: &str = "no objects, copied\n";

fn empty(names: usize, id_size: usize) -> Case {
    Case { id_size, names, threads: 1, chunks: 1, ..Case::default() }
}

fn body(ids: &[u64], size: usize) -> Vec<u8> {
    ids.iter().flat_map(|id| id.to_be_bytes()[8 - size..].to_vec()).collect()
}

impl Case {
    /// An object that holds these ids.
    fn holds(&mut self, id: u64, kind: u8, class: u32, ids: &[u64]) {
        let body = body(ids, self.id_size);
        self.object(id, kind, class, &body);
    }

    fn copied(mut self, base: u64) -> Case {
        self.copy_ids(base);
        self
    }

    fn rooted(mut self, roots: &[u32]) -> Case {
        self.roots = roots.to_vec();
        self
    }

    fn but(mut self, change: impl FnOnce(&mut Case)) -> Case {
        change(&mut self);
        self
    }
}

/// A reference class of every kind, each with a weak and a strong slot.
fn kinds() -> Case {
    let mut case = empty(2, 8);
    for kind in 0..5 {
        case.class(0, 0, false, kind, &[(0, 0, true), (8, 1, false)], &[]);
    }
    for class in 0..5 {
        case.holds(64 + 8 * u64::from(class), 0, class, &[64, 96]);
    }
    case.copied(64)
}

/// Weak slots to targets that fall and repeat.
fn weak_pairs() -> Case {
    let mut case = empty(1, 8);
    case.class(0, 0, false, 2, &[(0, 0, true), (8, 0, true), (16, 0, true), (24, 0, true)], &[]);
    case.holds(16, 0, 0, &[32, 24, 24, 0]);
    case.holds(24, 0, 0, &[16, 17, 24, 16]);
    case.holds(32, 2, 0, &[]);
    case.copied(16)
}

/// Ids that no object has: of kept and other slots, of elements and statics; a loader that is missing is not counted.
fn missing(loader: u64) -> Case {
    let mut case = empty(3, 8);
    case.class(0, 0, false, 2, &[(0, 0, true), (8, 1, false)], &[]);
    case.class(40, loader, true, 0, &[], &[(2, 2, 99), (1, 2, 24), (0, 2, 0), (2, 10, 24), (2, 2, 40)]);
    case.holds(24, 0, 0, &[98, 97]);
    case.holds(32, 1, 0, &[96, 0, 32, 95]);
    case.holds(40, 3, 0, &[]);
    case.copied(24)
}

/// Classes that are dumped or not, among the objects or not, with statics of every type.
fn classes() -> Case {
    let mut case = empty(12, 8);
    let statics: Vec<(u32, u8, u64)> =
        [2, 4, 5, 6, 7, 8, 9, 10, 11].iter().map(|&kind| (u32::from(kind), kind, if kind == 2 { 16 } else { 1 })).collect();
    case.class(16, 24, true, 0, &[], &statics);
    case.class(24, 24, false, 0, &[], &statics);
    case.class(77, 16, true, 0, &[], &statics);
    case.class(32, 0, true, 0, &[], &[]);
    for id in [16, 24, 32] {
        case.holds(id, 3, 0, &[]);
    }
    case.copied(16)
}

/// Bodies that end before, within and behind their slots; the copied ids past a body's end are null.
fn short_bodies(size: usize) -> Case {
    let mut case = empty(3, size);
    let step = size as u32;
    case.class(0, 0, false, 0, &[(0, 0, false), (step, 1, false), (2 * step, 2, false)], &[]);
    let whole = body(&[16, 24, 32], size);
    for (k, length) in [0, size - 1, size, 2 * size + 1, 3 * size - 1, 3 * size].into_iter().enumerate() {
        case.object(16 + 8 * k as u64, 0, 0, &whole[..length]);
    }
    case.object(64, 0, 0, &[whole.as_slice(), &[1, 2, 3]].concat());
    case.copied(16)
}

/// Slots that overlap: only their offsets must rise. The second ends past a body of 9, the third would fit no more.
fn overlapping() -> Case {
    let mut case = empty(2, 8);
    case.class(0, 0, false, 0, &[(0, 0, false), (1, 1, false), (2, 0, false)], &[]);
    case.object(1, 0, 0, &[0, 0, 0, 0, 0, 0, 0, 1, 0, 0]);
    case.object(256, 0, 0, &[0, 0, 0, 0, 0, 0, 1, 0, 0]);
    case.object(65_536, 0, 0, &[0, 0, 0, 0, 0, 1, 0, 0, 0]);
    case.copied(0)
}

/// Ids at the ends of what a code can say, and up to the last id.
fn far_ids() -> Case {
    let last_code = 1000 + 8 * 4_294_967_293;
    let ids = [8, 999, 1000, 1001, 1008, last_code, last_code + 8, u64::MAX];
    let mut case = empty(0, 8);
    for (k, &id) in ids.iter().enumerate() {
        case.holds(id, if k == 3 { 1 } else { 2 }, 0, if k == 3 { &ids } else { &[] });
    }
    case.copied(1000)
}

/// Objects whose parts are the same ids, of classes that share their slots.
fn shared() -> Case {
    let mut case = empty(2, 8);
    case.class(0, 0, false, 0, &[(0, 0, false), (8, 1, true)], &[]);
    case.class(0, 0, false, 1, &[], &[]);
    (case.slot_starts[1], case.slot_ends[1]) = (0, 2);
    case.holds(8, 0, 0, &[16, 24]);
    case.holds(16, 0, 1, &[16, 24]);
    case.holds(24, 1, 0, &[16, 24]);
    case.copied(8).but(|case| {
        case.starts = vec![0; 3];
        case.codes.truncate(2);
        case.body_starts = vec![0; 3];
        case.bytes.truncate(16);
    })
}

/// So many objects, the last of which holds the first.
fn blocks(objects: u64) -> Case {
    let mut case = empty(0, 4);
    for at in 1..=objects {
        let held: &[u64] = if at == objects || at == 1 { &[8] } else { &[] };
        case.holds(8 * at, 1, 0, held);
    }
    case.copied(8)
}

/// A first object with so many edges, so that the offset behind it lies as far above its base; others behind it up to the next block.
fn wide(edges: usize, objects: u64) -> Case {
    let mut case = empty(0, 4);
    case.holds(8, 1, 0, &vec![EVEN; edges]);
    for at in 1..objects {
        case.holds(EVEN + 8 * (at - 1), 1, 0, if at % 128 == 0 { &[8, EVEN] } else { &[] });
    }
    case.copied(8)
}

/// An object that holds itself, and that another holds three times.
fn repeats() -> Case {
    let mut case = empty(2, 4);
    case.class(0, 0, false, 0, &[(0, 0, false), (4, 1, false)], &[]);
    case.holds(8, 0, 0, &[8, 16]);
    case.holds(16, 1, 0, &[8, 0, 8, 8]);
    case.copied(8)
}

/// An array with these numbers of nulls before its elements, which refer to the other object; behind them one that refers to the array itself.
fn gaps(nulls: &[usize]) -> Case {
    let mut case = empty(0, 4);
    let held: Vec<u64> = nulls.iter().flat_map(|&nulls| vec![0; nulls].into_iter().chain([16])).chain([8]).collect();
    case.holds(8, 1, 0, &held);
    case.holds(16, 1, 0, &[0, 0, 8]);
    case.copied(8)
}

/// An instance that has so many fields, and others that use some of them again.
fn fields(names: u32) -> Case {
    let mut case = empty(names as usize, 4);
    let all: Vec<(u32, u32, bool)> = (0..names).map(|k| (4 * k, k, false)).collect();
    case.class(0, 0, false, 0, &all, &[]);
    case.class(0, 0, false, 0, &[(0, names - 1, false), (4, 5, false)], &[]);
    case.class(24, 8, true, 0, &[], &[(names - 2, 2, EVEN)]);
    case.holds(8, 0, 0, &vec![EVEN; names as usize]);
    case.holds(24, 3, 0, &[]);
    case.holds(EVEN, 0, 1, &[8, 24]);
    case.copied(8)
}

/// So many arrays that share so many elements.
fn crowd(objects: usize, elements: usize) -> Case {
    Case {
        ids: (1..=objects as u64).collect(),
        kinds: vec![1; objects],
        classes: vec![0; objects],
        lengths: vec![elements as u32; objects],
        codes: vec![1; elements],
        base: 1,
        starts: vec![0; objects],
        bytes: vec![0; 4 * elements],
        body_starts: vec![0; objects],
        bodies: vec![4 * elements as u32; objects],
        ..empty(0, 4)
    }
}

/// Cases that are accepted, by both routes.
fn accepted() -> Vec<(String, Case)> {
    let mut all: Vec<(String, Case)> = Vec::new();
    let mut add = |title: &str, case: Case| all.push((title.to_string(), case));
    add("no objects", empty(0, 8));
    add("no objects, two names and a class", empty(2, 8).but(|case| case.class(8, 8, true, 0, &[(0, 1, false)], &[(0, 2, 8)])));
    add("missing ids, no loader", missing(0));
    add("missing ids, loader found", missing(32));
    add("missing ids, loader missing", missing(33));
    add("classes dumped and found, and not", classes());
    add("short bodies, id size 8", short_bodies(8));
    add("short bodies, id size 4", short_bodies(4));
    add("overlapping slots", overlapping());
    add("ids far from the base", far_ids());
    add("shared slots and shared parts", shared());
    add("roots that repeat and fall", blocks(5).rooted(&[4, 0, 4, 2, 0, 4]));
    for objects in [255, 256, 257, 512] {
        add(&format!("{objects} objects"), blocks(objects));
    }
    for edges in [65_534, 65_535, 65_536] {
        add(&format!("offset difference {edges}"), wide(edges, 3));
    }
    add("long offsets up to the next block", wide(65_536, 300));
    for nulls in [32_766, 32_767, 32_768] {
        add(&format!("first gap {nulls}"), gaps(&[nulls]));
    }
    add("gaps 0, 32766 and 32767 in one array", gaps(&[0, 32_766, 32_767, 3]));
    add("70 elements before an escape and 70 behind it", gaps(&[[1; 70].as_slice(), &[32_767], &[2; 70]].concat()));
    for names in [32_766, 32_767, 32_768] {
        add(&format!("{names} fields and the loader"), fields(names));
    }
    add("an object that holds itself, and is held three times", repeats());
    add("65537 edges of one object", wide(65_537, 2));
    all
}

/// Cases that are accepted, by both routes, under every policy.
fn every_policy() -> Vec<(&'static str, Case)> {
    vec![
        ("worked dump", worked()),
        ("reference kinds", kinds()),
        ("weak pairs that fall and repeat", weak_pairs()),
        ("missing ids", missing(32)),
        ("shared slots", shared()),
    ]
}

/// Cases that are refused, with the routes that show it.
fn refused() -> Vec<(String, Case, Vec<Route>)> {
    let mut all: Vec<(String, Case, Vec<Route>)> = Vec::new();
    // A fault that both routes meet is shown by one of them in turn.
    let turn = std::cell::Cell::new(0);
    let either = || vec![ROUTES[turn.replace(turn.get() + 1) % 2]];
    let mut add = |title: &str, routes: Vec<Route>, change: fn(&mut Case)| all.push((title.to_string(), worked().but(change), routes));
    add("one kind too few", either(), |case| case.kinds.truncate(3));
    add("one start too many", either(), |case| {
        case.starts.push(0);
        case.body_starts.push(0);
    });
    add("one loader too few", either(), |case| case.loaders.truncate(2));
    add("one slot flag too few", either(), |case| case.slot_weak.truncate(1));
    add("one static value too many", either(), |case| case.static_values.push(0));
    add("one escape place too many", vec![Route::Copied], |case| case.escape_places.push(5));
    add("16777217 names", either(), |case| case.names = 16_777_217);
    add("id size 5", vec![Route::Raw], |case| case.id_size = 5);
    add("id 0", either(), |case| case.ids[0] = 0);
    add("an id twice", either(), |case| case.ids[2] = 264);
    add("kind 4 behind an id that falls", either(), |case| (case.kinds[3], case.ids[2]) = (4, 7));
    add("class outside the classes", either(), |case| case.classes[1] = 3);
    add("array length over the limit", either(), |case| case.lengths[2] = 268_435_457);
    add("dumped flag 2", either(), |case| case.dumped[1] = 2);
    add("reference kind 5", either(), |case| case.class_kinds[2] = 5);
    add("slot range that falls", either(), |case| (case.slot_starts[1], case.slot_ends[1]) = (2, 1));
    add("slot range past the table", either(), |case| case.slot_ends[2] = 3);
    add("static range past the table", either(), |case| case.static_ends[0] = 2);
    add("slot label that is the name count", either(), |case| case.slot_labels[1] = 3);
    add("weak flag 2", either(), |case| case.slot_weak[0] = 2);
    add("slot offsets that do not rise", either(), |case| case.slot_ends[0] = 2);
    add("static name past the names", either(), |case| case.static_names[0] = 3);
    add("static type 3", either(), |case| case.static_types[0] = 3);
    add("static type 12", either(), |case| case.static_types[0] = 12);
    add("dumped class found at an instance", either(), |case| (case.dumped[0], case.class_ids[0]) = (1, 264));
    add("dumped class found twice", either(), |case| (case.dumped[1], case.class_ids[1]) = (1, 4096));
    add("two faulty classes", either(), |case| (case.static_types[0], case.class_kinds[1]) = (1, 9));
    add("escapes that do not rise", vec![Route::Copied], |case| {
        (case.codes[3], case.escape_places, case.escape_ids) = (ESCAPED, vec![3, 3], vec![9, 9]);
    });
    add("code without its escape", vec![Route::Copied], |case| case.codes[2] = ESCAPED);
    add("escape without its code", vec![Route::Copied], |case| case.codes[4] = 9);
    add("escape past the codes", vec![Route::Copied], |case| {
        case.escape_places.push(5);
        case.escape_ids.push(5);
    });
    add("escape of id 0", vec![Route::Copied], |case| case.escape_ids[0] = 0);
    add("code past 64 bits", vec![Route::Copied], |case| case.base = u64::MAX - 7);
    add("code of id 0", vec![Route::Copied], |case| case.base = 0);
    add("part past its column", either(), |case| (case.starts[2], case.body_starts[2]) = (3, 17));
    add("empty part past its column", either(), |case| {
        case.slot_ends[0] = 0;
        (case.starts[0], case.body_starts[0], case.bodies[0]) = (6, 41, 0);
    });
    add("body start at the end of 64 bits", vec![Route::Raw], |case| case.body_starts[1] = u64::MAX);
    add("array body that is not its length", vec![Route::Raw], |case| case.bodies[2] = 16);
    add("root that is no object", either(), |case| case.roots = vec![3, 4, 5]);
    add("a wrong root and a wrong class", either(), |case| (case.roots, case.dumped[0]) = (vec![9], 7));
    all.push(("268470000 places".into(), crowd(2_983, 90_000), ROUTES.to_vec()));
    all.push(("268435456 places, and no room".into(), crowd(2_048, 131_072), vec![Route::Copied]));
    all
}

/// Questions about the first objects and the last: labels that they have and others, targets that they have and others.
fn questions(case: &Case, route: Route) -> Questions {
    let graph = oracle::build(case, route);
    let (objects, names) = (graph.root, case.names as u32);
    let mut asked = Questions::default();
    for object in (0..objects.min(4)).chain((objects > 4).then_some(objects - 1)) {
        let edges = graph.edges(object);
        for k in [0, 1, edges.len().saturating_sub(1)].into_iter().filter(|&k| k < edges.len()) {
            asked.field.push((object, edges.coarse(k)));
            asked.label_of.push((object, graph.all_targets()[graph.span(object).start + k]));
        }
        asked.field.extend([(object, 0), (object, names), (object, LOADER), (object, ARRAY_ELEMENT), (object, ARRAY_ELEMENT + 1)]);
        asked.referent.extend([(object, 1), (object, names)]);
        asked.label_of.extend([(object, object), (object, objects)]);
    }
    asked.field.push((objects, 0));
    asked.referent.push((objects, LOADER));
    asked.label_of.push((objects, 0));
    for pairs in [&mut asked.field, &mut asked.referent, &mut asked.label_of] {
        pairs.sort_unstable();
        pairs.dedup();
    }
    asked
}

/// Exact room; for every third case some more.
fn room(case: &Case, route: Route, at: usize) -> Rooms {
    let needs = text::needs(case, route, &oracle::build(case, route));
    needs.map(|need| need + usize::from(at.is_multiple_of(3)))
}

/// Room for the case under every policy.
fn room_for_all(case: &Case, route: Route) -> Rooms {
    let needs = ReferencePolicy::ALL.map(|policy| {
        let case = case.clone().under(policy);
        text::needs(&case, route, &oracle::build(&case, route))
    });
    std::array::from_fn(|at| needs.iter().map(|rooms| rooms[at]).max().unwrap_or(0))
}

/// The worked dump in exact room, and then with each column one number short.
fn rooms(route: Route) -> Vec<Rooms> {
    let case = worked();
    let exact = text::needs(&case, route, &oracle::build(&case, route));
    let short = (0..17).filter(|&at| exact[at] > 0).map(|at| std::array::from_fn(|k| exact[k] - usize::from(k == at)));
    std::iter::once(exact).chain(short).collect()
}

/// Both sides agree on a case: a list of answers that the proved calls do not give is not written.
fn agree(case: &Case, route: Route) -> io::Result<()> {
    check::route(case, route, &mut Random::new(1), &mut Tally::default()).map_err(io::Error::other)
}

/// What a file has before the list: cases of its own, which stay.
fn before(file: &Path, first: &str) -> String {
    let text = fs::read_to_string(file).unwrap_or_default();
    let end = text.find(first).unwrap_or(text.len());
    text[..end].to_string()
}

/// Both files of the list, in a folder, behind the cases that stand there already.
pub fn write(folder: &Path) -> io::Result<()> {
    midden::parallel::set_threads(1);
    let (asked, answered) = (folder.join("stdin"), folder.join("stdout"));
    let mut asks = before(&asked, HEAD) + HEAD + "\n\n";
    let mut answers = before(&answered, FIRST);
    let mut count = 0;
    let mut add = |title: &str, case: &Case, under: Under, route: Route, rooms: &[Rooms], asked: &Questions| {
        let title = format!("{title}, {}", if route == Route::Copied { "copied" } else { "raw" });
        asks += &text::input(&title, case, under, route, rooms, asked);
        answers += &text::output(&title, case, under, route, rooms, asked);
        count += 1;
    };
    for (at, (title, case)) in accepted().iter().enumerate() {
        for route in ROUTES {
            assert_eq!(verdict::refusal(case, route), None, "{title}");
            agree(case, route)?;
            add(title, case, Under::Own, route, &[room(case, route, at)], &questions(case, route));
        }
    }
    for (title, case) in every_policy() {
        for route in ROUTES {
            policies::every(&case, route, &mut Tally::default()).map_err(io::Error::other)?;
            let all = case.clone().under(ReferencePolicy { soft: true, weak: true });
            add(&format!("{title}, every policy"), &case, Under::Every, route, &[room_for_all(&case, route)], &questions(&all, route));
        }
    }
    for route in ROUTES {
        add("worked dump, each column one number short", &worked(), Under::Own, route, &rooms(route), &Questions::default());
    }
    for (title, case, routes) in refused() {
        for route in routes {
            // The room is read by no refusal before ROOM; a little of it shows that it is left zero. What is not refused here is at the limit.
            let lent = if verdict::refusal(&case, route).is_some() { [3; 17] } else { [0; 17] };
            if lent[0] > 0 {
                agree(&case, route)?;
            }
            add(&title, &case, Under::Own, route, &[lent], &Questions::default());
        }
    }
    println!("{count} cases, {} bytes of input, {} bytes of answers", asks.len(), answers.len());
    fs::write(asked, asks)?;
    fs::write(answered, answers)
}
