//! Times of both sides in one process, on one thread, by turns: CPU time of the process, least and median of several runs. The original has no
//! incoming side, so inverting a graph is timed against a plain counting sort of its edges.
use std::cell::RefCell;

use yokefathom::compare::IncomingRoom;
use yokefathom::{ARRAY_ELEMENT, Graph, LOADER};

use crate::case::{Case, ROUTES, Route};
use crate::check;
use crate::memory::{self, Side};
use crate::oracle;
use crate::random::Random;

const RUNS: usize = 7;

/// CPU seconds of this process, from the system.
fn cpu() -> f64 {
    #[repr(C)]
    struct Time {
        seconds: i64,
        nanoseconds: i64,
    }
    unsafe extern "C" {
        fn clock_gettime(clock: i32, time: *mut Time) -> i32;
    }
    let mut time = Time { seconds: 0, nanoseconds: 0 };
    // SAFETY: the call writes one `timespec`; 2 is the CPU time of the process.
    unsafe { clock_gettime(2, &mut time) };
    time.seconds as f64 + time.nanoseconds as f64 * 1e-9
}

pub fn timed<T>(times: &mut Vec<f64>, work: impl FnOnce() -> T) -> T {
    let start = cpu();
    let result = work();
    times.push(cpu() - start);
    result
}

/// Least and median in milliseconds.
fn ends(times: &mut [f64]) -> (f64, f64) {
    times.sort_by(f64::total_cmp);
    (times[0] * 1e3, times[times.len() / 2] * 1e3)
}

/// What the ratio of least times may be at most, where something was aimed at.
type Aim = Option<f64>;
const QUESTION: Aim = Some(0.95);
const ANY_LABEL: Aim = Some(0.85);
const EACH_FIELD: Aim = Some(0.9);
const SINGLE_CALLS: Aim = Some(0.6);

/// A build at random or near targets; of ten million objects and more another.
fn build_aim(objects: u64) -> Aim {
    Some(if objects < 10_000_000 { 0.62 } else { 0.7 })
}

/// The aim and whether it is met, as a table's last two columns.
fn met(aim: Aim, ratio: f64) -> String {
    aim.map_or("| none | |".into(), |aim| format!("| {aim} | {} |", if ratio <= aim { "met" } else { "not met" }))
}

const HEADINGS: &str = "least ms | median | ratio of least | of medians | aim | |\n|---|---|---|---|---|---|---|---|---|";

fn line(what: &str, ours: &mut [f64], theirs: &mut [f64], aim: Aim) {
    let ((our_least, our_median), (their_least, their_median)) = (ends(ours), ends(theirs));
    let ratio = our_least / their_least;
    println!(
        "| {what} | {our_least:.2} | {our_median:.2} | {their_least:.2} | {their_median:.2} | {ratio:.2} | {:.2} {}",
        our_median / their_median,
        met(aim, ratio)
    );
}

/// The machine's processor, as Linux names it: on Arm by numbers, the implementer's and the part's.
pub fn processor() -> String {
    let told = std::fs::read_to_string("/proc/cpuinfo").unwrap_or_default();
    let value = |name: &str| told.lines().find_map(|line| line.strip_prefix(name)?.trim_start().strip_prefix(':').map(str::trim));
    let named = value("model name").map(String::from);
    let part = || Some(format!("implementer {}, part {}", value("CPU implementer")?, value("CPU part")?));
    let cores = std::thread::available_parallelism().map_or(0, usize::from);
    format!("{}, {}, {cores} cores", named.or_else(part).unwrap_or("a processor without a name".into()), std::env::consts::ARCH)
}

/// About four references an object: instances of a thousand classes, and arrays; a fifth null, one in a thousand missing.
pub fn case(objects: u64, near: bool) -> Case {
    let random = &mut Random::new(7);
    let mut case = Case { id_size: 8, names: 5000, threads: 1, chunks: 8, ..Case::default() };
    for class in 0..1000u32 {
        let reference = class % 50 == 6;
        let slots: Vec<(u32, u32, bool)> = (0..class % 7).map(|k| (8 * k, random.below(5000) as u32, reference && k == 0)).collect();
        case.class(0, 0, false, if reference { 1 + (class / 50 % 4) as u8 } else { 0 }, &slots, &[]);
    }
    let mut id = 0x7_0000_0000;
    let ids: Vec<u64> = (0..objects)
        .map(|_| {
            id += 16 + 8 * random.below(6);
            id
        })
        .collect();
    for at in 0..objects {
        let (kind, class) = match random.below(100) {
            0..75 => (0, random.below(1000) as u32),
            75..95 => (1, 0),
            _ => (2, 0),
        };
        let held = match kind {
            0 => case.slots_of(class as usize).len() as u64,
            1 => random.below(28),
            _ => 0,
        };
        let body: Vec<u8> = (0..held)
            .flat_map(|_| {
                let id = match random.below(1000) {
                    0..200 => 0,
                    200 => 0x123,
                    _ if near => ids[(at + random.below(2000)).min(objects - 1) as usize],
                    _ => ids[random.below(objects) as usize],
                };
                id.to_be_bytes()
            })
            .collect();
        case.object(ids[at as usize], kind, class, &body);
    }
    case.copy_ids(ids[0]);
    case
}

/// Where the targets lie, in words.
pub fn lie(near: bool) -> &'static str {
    if near { "near" } else { "at random" }
}

/// The same work on both sides by turns, each side first in every other; both come to the same number.
pub fn by_turns(what: &str, runs: usize, aim: Aim, ours: impl Fn() -> u64, theirs: impl Fn() -> u64) {
    let (mut our_times, mut their_times) = (Vec::new(), Vec::new());
    for run in 0..runs {
        let first = (run % 2 == 1).then(|| timed(&mut their_times, &theirs));
        let our = timed(&mut our_times, &ours);
        assert_eq!(our, first.unwrap_or_else(|| timed(&mut their_times, &theirs)), "{what}");
    }
    line(what, &mut our_times, &mut their_times, aim);
}

/// One question, asked by turns on both sides as a Rust program asks it: the original's is compiled into the loop, ours is called. Every answer is
/// compared before one is timed.
fn question(what: &str, aim: Aim, asked: &[(u32, u32)], ours: impl Fn(u32, u32) -> u64, theirs: impl Fn(u32, u32) -> u64) {
    for &(object, of) in asked {
        assert_eq!(ours(object, of), theirs(object, of), "{what}, of object {object} and {of}");
    }
    let (ours, theirs) =
        (|| asked.iter().map(|&(object, of)| ours(object, of)).sum(), || asked.iter().map(|&(object, of)| theirs(object, of)).sum());
    by_turns(&format!("{what}, {} objects", asked.len()), RUNS, aim, ours, theirs);
}

/// Edges taken one by one, as a `for` loop takes them.
fn one_by_one(edges: impl Iterator<Item = (u32, u32)>) -> u64 {
    let mut sum = 0;
    for (target, label) in edges {
        sum += u64::from(target ^ label);
    }
    sum
}

/// Each question of a hundred thousand objects at random: with labels and targets that the object has, where it has any, and with others.
fn questions(case: &Case, ours: &Graph, theirs: &midden::graph::Graph) {
    let random = &mut Random::new(11);
    let objects: Vec<u32> = (0..100_000).map(|_| random.below(case.ids.len() as u64) as u32).collect();
    let any: Vec<(u32, u32)> = objects.iter().map(|&object| (object, random.below(case.names as u64) as u32)).collect();
    let mut own = |of: fn((u32, u32)) -> u32| -> Vec<(u32, u32)> {
        let pick = |&object: &u32| {
            let edges: Vec<(u32, u32)> = theirs.edges(object).iter_coarse().collect();
            (object, if edges.is_empty() { 0 } else { of(random.pick(&edges)) })
        };
        objects.iter().map(pick).collect()
    };
    let (own_targets, own_labels) = (own(|edge| edge.0), own(|edge| edge.1));
    let option = |found: Option<u32>| found.map_or(0, |target| u64::from(target) + 1);
    for &(object, _) in &any {
        assert_eq!(ours.span(object).expect("an object"), theirs.span(object), "the span of object {object}");
        assert!(ours.edges(object).expect("an object").iter().eq(theirs.edges(object).iter()), "the edges of object {object}");
    }
    question("span", QUESTION, &any, |o, _| ours.span(o).unwrap().len() as u64, |o, _| theirs.span(o).len() as u64);
    question("field, its own label", QUESTION, &own_labels, |o, l| option(ours.field(o, l).unwrap()), |o, l| option(theirs.field(o, l)));
    question("field, any label", ANY_LABEL, &any, |o, l| option(ours.field(o, l).unwrap()), |o, l| option(theirs.field(o, l)));
    question("referent, any label", ANY_LABEL, &any, |o, l| option(ours.referent(o, l).unwrap()), |o, l| option(theirs.referent(o, l)));
    question(
        "label_of, its own target",
        QUESTION,
        &own_targets,
        |o, t| option(ours.label_of(o, t).unwrap()),
        |o, t| option(theirs.label_of(o, t)),
    );
    question("label_of, any target", QUESTION, &any, |o, t| option(ours.label_of(o, t).unwrap()), |o, t| option(theirs.label_of(o, t)));
    question(
        "edges with labels",
        QUESTION,
        &any,
        |o, _| ours.edges(o).unwrap().iter().map(|(t, l)| u64::from(t ^ l)).sum(),
        |o, _| theirs.edges(o).iter().map(|(t, l)| u64::from(t ^ l)).sum(),
    );
    question(
        "edges with labels, in a for loop",
        QUESTION,
        &any,
        |o, _| one_by_one(ours.edges(o).unwrap().iter()),
        |o, _| one_by_one(theirs.edges(o).iter()),
    );
    question(
        "targets alone",
        QUESTION,
        &any,
        |o, _| ours.edges(o).unwrap().targets().iter().map(|&t| u64::from(t)).sum(),
        |o, _| theirs.edges(o).targets().map(u64::from).sum(),
    );
}

/// A field of a hundred thousand objects at random by one call (M-104), against a loop of single calls and against the original's loop: asked the label
/// that most edges have, one that few have, elements, and the loader, which no edge has here.
fn each(case: &Case, ours: &Graph, theirs: &midden::graph::Graph) {
    let random = &mut Random::new(13);
    let objects: Vec<u32> = (0..100_000).map(|_| random.below(case.ids.len() as u64) as u32).collect();
    let (mut targets, mut found) = (vec![9; objects.len()], vec![9; objects.len()]);
    let lent = RefCell::new((&mut targets, &mut found));
    let option = |found: Option<u32>| found.map_or(0, |target| u64::from(target) + 1);
    let used = |label: u32| case.slot_labels.iter().filter(|&&slot| slot == label).count();
    let most = (0..case.names as u32).max_by_key(|&label| used(label)).unwrap_or(0);
    let few = (0..case.names as u32).filter(|&label| used(label) > 0).min_by_key(|&label| used(label)).unwrap_or(0);
    for (what, label) in
        [("the most used field", most), ("a field that few have", few), ("the first element", ARRAY_ELEMENT), ("the loader", LOADER)]
    {
        let by_one_call = || {
            let (targets, found) = &mut *lent.borrow_mut();
            ours.fields_into(&objects, label, targets, found).expect("objects");
            targets.iter().zip(found.iter()).map(|(&target, &found)| u64::from(target) + u64::from(found)).sum()
        };
        let by_single_calls = || objects.iter().map(|&object| option(ours.field(object, label).expect("an object"))).sum();
        let original = || objects.iter().map(|&object| option(theirs.field(object, label))).sum();
        let as_options = || ours.field_of_each(&objects, label).expect("objects").into_iter().map(option).sum();
        for (&object, ours) in objects.iter().zip(ours.field_of_each(&objects, label).expect("objects")) {
            assert_eq!(ours, theirs.field(object, label), "{what}, of object {object}");
        }
        let what = format!("{what} of {} objects", objects.len());
        by_turns(&format!("{what} by one call, against single calls"), RUNS, SINGLE_CALLS, by_one_call, by_single_calls);
        by_turns(&format!("{what} by one call, against the original's loop"), RUNS, EACH_FIELD, by_one_call, original);
        by_turns(&format!("{what} as options, against the original's loop"), RUNS, EACH_FIELD, as_options, original);
    }
}

/// Times of a build on both sides by turns, and the two graphs.
fn builds(case: &Case, route: Route, runs: usize) -> (Vec<f64>, Vec<f64>, Graph, midden::graph::Graph) {
    let (mut our_times, mut their_times) = (Vec::new(), Vec::new());
    let ready = oracle::ready(case, route);
    let mut graphs = None;
    for _ in 0..runs {
        let ours = timed(&mut our_times, || Graph::build(&case.input(route)).expect("a graph"));
        let references = (route == Route::Copied).then(|| oracle::references(case));
        let theirs = timed(&mut their_times, || ready.build(references).expect("a graph"));
        check::columns(&ours, &theirs).expect("the same graph");
        graphs = Some((ours, theirs));
    }
    let (ours, theirs) = graphs.expect("a run");
    (our_times, their_times, ours, theirs)
}

pub fn run(objects: u64) {
    midden::parallel::set_threads(1);
    println!("{}\n\n| What | ours, least ms | median | original, {HEADINGS}", processor());
    for near in [false, true] {
        let case = case(objects, near);
        for route in ROUTES {
            let (mut our_times, mut their_times, ours, theirs) = builds(&case, route, RUNS);
            let targets = lie(near);
            let what = format!("build {route:?}, {objects} objects, {} references, targets {targets}", case.codes.len());
            line(&what, &mut our_times, &mut their_times, build_aim(objects));
            if route == Route::Copied {
                questions(&case, &ours, &theirs);
                each(&case, &ours, &theirs);
            }
        }
    }
    println!();
    println!(
        "| Incoming | edges | ours, least ms | median | ns an edge | plain sort, least ms | median | ns an edge | ratio of least | of medians |"
    );
    println!("|---|---|---|---|---|---|---|---|---|---|");
    for near in [false, true] {
        incoming(objects, near);
    }
    println!();
    crate::late::run();
    println!();
    dropin(objects);
}

/// Times of what the original's other files compute, over our `graph.rs` and over its own.
pub fn dropin(objects: u64) {
    println!("{}\n\n| His files | over ours, least ms | median | over his, {HEADINGS}", processor());
    for near in [false, true] {
        crate::dropin::times(objects, near);
    }
}

/// What a plain counting sort of the edges by their targets fills: where the entries of each object begin, who refers, and the places.
struct Sorted {
    begins: Vec<u64>,
    sources: Vec<u32>,
    places: Vec<u32>,
}

impl Sorted {
    /// Columns for so many objects and edges, every page of them written to. The counts are as wide as the working offsets that M-103 names.
    fn with_room(objects: usize, edges: usize) -> Sorted {
        Sorted { begins: vec![9; objects + 1], sources: vec![9; edges], places: vec![9; edges] }
    }

    /// Counts the targets, each behind its own place. Sums them up, so that there stands where its entries begin. Lays each edge there and
    /// raises the number, so that at last it stands where it belongs. Nothing is checked, no label is read, and no offset is coded.
    fn sort(&mut self, offsets: &[u64], targets: &[u32]) {
        let (begins, sources, places) = (&mut self.begins[..], &mut self.sources[..], &mut self.places[..]);
        begins.fill(0);
        for &target in targets {
            begins[target as usize + 1] += 1;
        }
        let mut sum = 0;
        for count in &mut begins[1..] {
            let begin = sum;
            sum += *count;
            *count = begin;
        }
        for (object, span) in offsets.windows(2).enumerate() {
            let span = span[0] as usize..span[1] as usize;
            for (place, &target) in span.clone().zip(&targets[span]) {
                let next = &mut begins[target as usize + 1];
                let at = *next as usize;
                *next += 1;
                sources[at] = object as u32;
                places[at] = place as u32;
            }
        }
    }
}

/// Columns for a graph's incoming side, every page of them written to.
fn spoiled(graph: &Graph) -> IncomingRoom {
    let mut room = IncomingRoom::for_columns(&graph.columns());
    for column in [&mut room.sources, &mut room.places, &mut room.long_at] {
        column.fill(9);
    }
    for column in [&mut room.bases, &mut room.long_value, &mut room.working] {
        column.fill(9);
    }
    room.short.fill(9);
    room
}

/// Inverting a graph and sorting its edges plainly, by turns, into columns that both were lent before.
fn incoming(objects: u64, near: bool) {
    let graph = Graph::build(&case(objects, near).input(Route::Copied)).expect("a graph");
    let (columns, offsets): (_, Vec<u64>) = (graph.columns(), graph.offsets().collect());
    let (mut room, mut sorted) = (spoiled(&graph), Sorted::with_room(graph.object_count(), graph.all_targets().len()));
    let (mut our_times, mut their_times) = (Vec::new(), Vec::new());
    for _ in 0..RUNS {
        let answer = timed(&mut our_times, || room.invert(&columns));
        timed(&mut their_times, || sorted.sort(&offsets, columns.targets));
        assert_eq!(answer[..3], [3, 0, graph.edge_count()]);
        assert!(room.sources == sorted.sources && room.places == sorted.places, "both sides have the same entries");
    }
    let ((our_least, our_median), (their_least, their_median)) = (ends(&mut our_times), ends(&mut their_times));
    let edge = |least: f64| least * 1e6 / graph.edge_count() as f64;
    println!(
        "| {objects} objects, targets {} | {} | {our_least:.2} | {our_median:.2} | {:.1} | {their_least:.2} | {their_median:.2} | {:.1} | {:.2} | {:.2} |",
        lie(near),
        graph.edge_count(),
        edge(our_least),
        edge(their_least),
        our_least / their_least,
        our_median / their_median
    );
}

/// The sizes of `growth`: each twice the one before.
const SIZES: [u64; 4] = [250_000, 500_000, 1_000_000, 2_000_000];

/// Time and peak memory of a build against the size of its input. Memory does not depend on where targets lie.
pub fn growth() {
    midden::parallel::set_threads(1);
    println!(
        "| Build | objects | references | ours, least ms | median | ns a reference | peak MB | original, least ms | median | ns a reference | peak MB |"
    );
    println!("|---|---|---|---|---|---|---|---|---|---|---|");
    for near in [false, true] {
        for route in ROUTES {
            for objects in SIZES {
                grown(objects, route, near);
            }
        }
    }
}

fn grown(objects: u64, route: Route, near: bool) {
    let case = case(objects, near);
    let references = case.codes.len();
    let (mut our_times, mut their_times, ..) = builds(&case, route, 5);
    drop(case);
    let side = |times: &mut [f64], side: Side| {
        let (least, median) = ends(times);
        let peak = memory::peak(side, route, objects).map_or("not told".into(), |kilobytes| format!("{:.0}", kilobytes as f64 / 1024.0));
        format!("{least:.1} | {median:.1} | {:.1} | {peak}", least * 1e6 / references as f64)
    };
    let (ours, theirs) = (side(&mut our_times, Side::Ours), side(&mut their_times, Side::Original));
    let targets = lie(near);
    println!("| {route:?}, targets {targets} | {objects} | {references} | {ours} | {theirs} |");
}
