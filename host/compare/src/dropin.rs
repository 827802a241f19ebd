//! The maintainer's chair: his published files, compiled once over his `graph.rs` and once over ours (`host/midden/graph.rs`). Whatever they
//! compute has to be the same, and a damaged dump has to be refused in our words.
use yokefathom::{ARRAY_ELEMENT, Graph, Refusal};

use crate::bench;
use crate::case::{Case, ROUTES, Route};
use crate::generate::{self, Mix, Shape};
use crate::verdict;

// Both have the files `side.rs` and `oracle.rs`, each over its own crate.
#[allow(clippy::duplicate_mod)]
mod his;
#[allow(clippy::duplicate_mod)]
mod ours;

/// Numbers under a name. A text is the numbers of its bytes.
type Part = (&'static str, Vec<u64>);

/// What was computed, in order.
#[derive(Default)]
pub struct Found(Vec<Part>);

impl Found {
    pub fn add(&mut self, what: &'static str, numbers: impl IntoIterator<Item = impl Into<u64>>) {
        self.0.push((what, numbers.into_iter().map(Into::into).collect()));
    }

    pub fn text(&mut self, what: &'static str, text: &str) {
        self.add(what, text.bytes());
    }

    /// How many numbers there are.
    fn len(&self) -> u64 {
        self.0.iter().map(|(_, numbers)| numbers.len() as u64).sum()
    }

    /// The first part that differs.
    fn differs(&self, his: &Found) -> Option<String> {
        let differing = |(ours, his): (&Part, &Part)| {
            let at = ours.1.iter().zip(&his.1).take_while(|(our, his)| our == his).count();
            let (our, theirs) = (ours.1.get(at), his.1.get(at));
            (ours != his).then(|| format!("{} and {}, at {at}: ours {our:?}, his {theirs:?}", ours.0, his.0))
        };
        let first = self.0.iter().zip(&his.0).find_map(differing);
        first.or_else(|| (self.0.len() != his.0.len()).then(|| format!("ours {} parts, his {}", self.0.len(), his.0.len())))
    }
}

/// An answer that may be none, as a number.
pub fn found(answer: Option<u32>) -> u64 {
    answer.map_or(u64::MAX, u64::from)
}

/// The sum of many numbers.
pub fn wide(numbers: impl Iterator<Item = u32>) -> u64 {
    numbers.map(u64::from).sum()
}

/// Something that takes time, by name.
pub type Operation<'a> = (&'static str, Box<dyn Fn() -> u64 + 'a>);

/// Both sides of a sound case, by one route: how many numbers were compared.
fn compare(case: &Case, route: Route) -> Result<u64, String> {
    let (his, ours) = (his::side::ready(case, route), ours::side::ready(case, route));
    let our_graph = ours::side::graph(&ours, case, route)?;
    nothing_there(&our_graph)?;
    bad_parts(&ours.dump, &our_graph)?;
    let our_found = ours::side::computed(&ours.dump, &our_graph, 40);
    let his_found = his::side::computed(&his.dump, &his::side::graph(&his, case, route)?, 40);
    our_found.differs(&his_found).map_or(Ok(our_found.len()), Err)
}

/// Our graph has nothing to say of objects and edges that it does not have. The original panics.
fn nothing_there(graph: &ours::midden::graph::Graph) -> Result<(), String> {
    for object in [graph.root, graph.root + 1, u32::MAX] {
        let (edges, label) = (graph.edges(object), ARRAY_ELEMENT);
        let said = (graph.span(object), edges.len(), edges.iter().count(), edges.coarse(0), edges.label_of(0));
        let more = (graph.field(object, label), graph.referent(object, 0), graph.label_of(object, 0), graph.weak_referents(object).count());
        if (said, more) != ((0..0, 0, 0, u32::MAX, None), (None, None, None, 0)) {
            return Err(format!("object {object}, which does not exist, has answers"));
        }
    }
    for object in 0..graph.root.min(40) {
        let edges = graph.edges(object);
        if edges.coarse(edges.len()) != u32::MAX || edges.label_of(graph.root).is_some() {
            return Err(format!("object {object} has an edge past its last"));
        }
    }
    Ok(())
}

/// A graph's own parts with a target that is no object: refused in our words.
fn bad_parts(dump: &ours::midden::dump::Dump, graph: &ours::midden::graph::Graph) -> Result<(), String> {
    let (offsets, labels): (Vec<u64>, Vec<u32>) = (graph.offsets().collect(), graph.all_labels().collect());
    let mut targets = graph.all_targets().to_vec();
    let Some(last) = targets.last_mut() else { return Ok(()) };
    *last = graph.root;
    let parts = yokefathom::Parts { offsets: &offsets, targets: &targets, labels: &labels, ..Default::default() };
    let expected = Refusal::Parts { column: 3, position: targets.len() as u64 - 1 };
    match ours::midden::graph::Graph::try_from_parts(dump, &parts) {
        Err(ours::midden::error::Error::Dump(words)) if words == expected.to_string() => Ok(()),
        Err(error) => Err(format!("bad parts: {error}")),
        Ok(_) => Err("bad parts were taken".into()),
    }
}

/// What a child does: parts without an offset, by the call that has no error to give.
pub fn cache() {
    let dump = ours::oracle::dump(&Case { id_size: 8, ..Case::default() }, Vec::new());
    let none = || std::iter::empty::<u32>().collect();
    ours::midden::graph::Graph::from_parts(std::iter::empty::<u64>().collect(), none(), none(), &dump, Vec::new(), 0, Vec::new());
    println!("a graph");
}

/// Such parts end a program with our words.
fn cache_ends() -> Result<(), String> {
    let child = std::env::current_exe()
        .and_then(|this| std::process::Command::new(this).arg("dropin-cache").output())
        .map_err(|e| e.to_string())?;
    let said = (child.status.code(), child.stdout.is_empty(), String::from_utf8_lossy(&child.stderr).into_owned());
    let expected = (Some(1), true, format!("{}\n", Refusal::Parts { column: 1, position: 0 }));
    if said == expected { Ok(()) } else { Err(format!("a bad cache: {said:?}, expected {expected:?}")) }
}

/// A name for a way to damage a case, the way, and the routes that read what it damages.
type Damage = (&'static str, fn(&mut Case), &'static [Route]);

/// Damages that a `Dump` of the original can carry.
const DAMAGES: [Damage; 8] = [
    ("a root that is no object", |case| case.roots.push(case.ids.len() as u32), &ROUTES),
    ("a slot without a name", |case| case.slot_labels.iter_mut().for_each(|label| *label = case.names as u32), &ROUTES),
    ("slots out of order", |case| case.slot_offsets.iter_mut().for_each(|offset| *offset = 8), &ROUTES),
    ("a static without a name", |case| case.static_names.iter_mut().for_each(|name| *name = case.names as u32), &ROUTES),
    ("an escape that is not listed", |case| case.codes.iter_mut().for_each(|code| *code = u32::MAX), &[Route::Copied]),
    ("a start too few", |case| case.starts.truncate(case.starts.len().saturating_sub(1)), &[Route::Copied]),
    ("instances of a class that there is not", no_class, &ROUTES),
    ("parts past the end", |case| case.starts.iter_mut().for_each(|start| *start += 1 << 20), &[Route::Copied]),
];

/// A class behind the last, where the original's table has bits for one more.
fn no_class(case: &mut Case) {
    let behind = case.class_ids.len() as u32 + 1;
    if !behind.is_power_of_two() {
        case.classes.fill(behind);
    }
}

/// A damaged dump: `Error::Dump` with our words where the input is refused, and a graph where it is not.
fn refuse(case: &Case, route: Route) -> Result<bool, String> {
    let said = ours::side::graph(&ours::side::ready(case, route), case, route).map(drop);
    let expected = Graph::build(&case.input(route)).map(drop).map_err(|refusal| refusal.to_string());
    match (said, expected) {
        (Err(words), Err(expected)) if words == expected => Ok(true),
        (Ok(()), Ok(())) => Ok(false),
        (said, expected) => Err(format!("{said:?}, expected {expected:?}")),
    }
}

/// So many graphs of seeds from one on, and every damage of each seed's case: how many differences.
pub fn graphs(first: u64, count: u64) -> u64 {
    let (mut built, mut numbers, mut refused, mut differences, mut seed) = (0, 0, 0, 0, first);
    if let Err(text) = cache_ends() {
        println!("dropin: {text}");
        differences += 1;
    }
    while built < count && differences == 0 {
        let case = generate::case(seed, Shape::of_seed(seed, Mix::Wide));
        for route in ROUTES.into_iter().filter(|&route| verdict::refusal(&case, route).is_none()) {
            match compare(&case, route) {
                Ok(compared) => (built, numbers) = (built + 1, numbers + compared),
                Err(text) => (differences, _) = (differences + 1, println!("dropin seed {seed}, {route:?}: {text}")),
            }
            for (name, damage, _) in DAMAGES.iter().filter(|damage| damage.2.contains(&route)) {
                let mut case = case.clone();
                damage(&mut case);
                match refuse(&case, route) {
                    Ok(told) => refused += u64::from(told),
                    Err(text) => (differences, _) = (differences + 1, println!("dropin seed {seed}, {route:?}, {name}: {text}")),
                }
            }
        }
        seed += 1;
    }
    println!("dropin, seeds {first} to {}: {built} graphs, {numbers} numbers, {refused} refusals, {differences} differences", seed - 1);
    differences
}

/// A dump file by both routes under all four policies: how many differences.
pub fn dump(path: &str) -> u64 {
    let mut differences = 0;
    for (route, policy) in ROUTES.into_iter().flat_map(|route| (0..4).map(move |policy| (route, policy))) {
        let keeps = (policy & 1 == 1, policy & 2 == 2);
        let (ours, his) = (ours::side::of_dump(path, route, keeps, 400), his::side::of_dump(path, route, keeps, 400));
        let outcome = ours.and_then(|ours| his.and_then(|his| ours.differs(&his).map_or(Ok(ours.len()), Err)));
        match outcome {
            Ok(numbers) => println!("dropin, {route:?}, policy {keeps:?}: {numbers} numbers, no difference"),
            Err(text) => (differences, _) = (differences + 1, println!("dropin, {route:?}, policy {keeps:?}: {text}")),
        }
    }
    differences
}

/// Their times differ from run to run by more than questions do: memory is asked for and given back.
const RUNS: usize = 11;

/// Times of what his files compute, over our graph and over his, by turns.
pub fn times(objects: u64, near: bool) {
    let mut case = bench::case(objects, near);
    case.roots = (0..objects as u32).step_by(100).collect();
    for route in ROUTES {
        let (our, his) = (ours::side::ready(&case, route), his::side::ready(&case, route));
        let our_graph = ours::side::graph(&our, &case, route).expect("a graph");
        let his_graph = his::side::graph(&his, &case, route).expect("a graph");
        let our_work = ours::side::operations(&our, &our_graph, &case, route, RUNS);
        let his_work = his::side::operations(&his, &his_graph, &case, route, RUNS);
        for ((what, our_work), (_, his_work)) in our_work.iter().zip(&his_work) {
            let what = format!("{what}, {route:?}, {objects} objects, targets {}", bench::lie(near));
            let aim = what.starts_with("dominators").then_some(1.0);
            bench::by_turns(&what, RUNS, aim, our_work, his_work);
            if route == Route::Raw {
                break;
            }
        }
    }
}
