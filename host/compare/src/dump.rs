//! A real dump on both sides: its columns come through the original's own index pass, and both build it by both routes under all four policies.
use std::collections::HashMap;
use std::io;
use std::path::Path;

use midden::dump::{Dump, Kind};
use midden::graph as original;
use midden::hprof::{self, Body, Reader, Sink};
use midden::source::Source;
use yokefathom::{ARRAY_ELEMENT, Graph, LOADER, ReferencePolicy};

use crate::case::{Case, ROUTES, Route};
use crate::check::{self, same};
use crate::each;
use crate::handed;
use crate::incoming;
use crate::lent::Outcome;
use crate::oracle;
use crate::policies;
use crate::random::Random;
use crate::tally::Tally;
use crate::verdict;

/// Questions asked of each graph.
const QUESTIONS: u64 = 1_000_000;

/// The bodies of instances and object arrays, one behind the other as they stand in the file.
#[derive(Default)]
struct Bodies {
    bytes: Vec<u8>,
    at: HashMap<u64, (u64, u32)>,
}

impl Bodies {
    fn keep(&mut self, id: u64, body: Body) -> io::Result<()> {
        let start = self.bytes.len() as u64;
        self.bytes.extend(body.bytes()?);
        self.at.entry(id).or_insert((start, (self.bytes.len() as u64 - start) as u32));
        Ok(())
    }
}

impl Sink for Bodies {
    fn instance(&mut self, id: u64, _: u64, body: Body) -> io::Result<()> {
        self.keep(id, body)
    }

    fn object_array(&mut self, id: u64, _: u64, _: u32, body: Body) -> io::Result<()> {
        self.keep(id, body)
    }
}

/// A dump file as both sides take it.
struct Imported {
    case: Case,
    dump: Dump,
    source: Source,
}

fn classes(dump: &Dump, case: &mut Case) {
    for class in &dump.classes {
        let slots: Vec<(u32, u32, bool)> = class.slots.iter().map(|slot| (slot.offset, slot.label, slot.weak)).collect();
        let statics: Vec<(u32, u8, u64)> = class.statics.iter().map(|field| (field.name, field.ty.tag(), field.value.bits())).collect();
        case.class(class.id, class.loader, class.dumped, class.ref_kind.map_or(0, |kind| kind as u8 + 1), &slots, &statics);
    }
}

fn objects(dump: &Dump, bodies: Bodies, case: &mut Case) {
    for at in 0..dump.objects.len() {
        let (id, object) = (dump.objects.id(at), dump.objects.get(at));
        let held = matches!(object.kind, Kind::Instance | Kind::ObjectArray);
        let (start, length) = bodies.at.get(&id).copied().filter(|_| held).unwrap_or((0, 0));
        case.ids.push(id);
        case.kinds.push(object.kind as u8);
        case.classes.push(object.class);
        case.lengths.push(object.len);
        case.body_starts.push(start);
        case.bodies.push(length);
    }
    case.bytes = bodies.bytes;
}

fn import(path: &str) -> Result<Imported, Box<dyn std::error::Error>> {
    let (dump, references, source) = oracle::index(path)?;
    let references = references.ok_or("a class dump comes late in this file: the original copies no ids of it")?;
    let mut bodies = Bodies::default();
    let (mut reader, _) = Reader::open(Path::new(path))?;
    hprof::walk(&mut reader, &mut bodies, false)?;
    let mut case = Case { id_size: dump.header.id_size as usize, names: dump.names.len(), chunks: 1, ..Case::default() };
    classes(&dump, &mut case);
    objects(&dump, bodies, &mut case);
    case.roots = dump.roots.iter().map(|root| root.0).collect();
    case.base = references.copied.base;
    case.codes = references.copied.ids.to_vec();
    case.starts = references.starts.to_vec();
    (case.escape_places, case.escape_ids) = references.copied.escapes.iter().copied().unzip();
    Ok(Imported { case, dump, source })
}

impl Imported {
    /// The original's graph, from the ids that it copied or from the file itself.
    fn original(&self, route: Route) -> original::Graph {
        midden::parallel::set_threads(self.case.threads);
        let policy = original::ReferencePolicy { soft: self.case.soft, weak: self.case.weak };
        let references = (route == Route::Copied).then(|| oracle::references(&self.case));
        original::build(&self.dump, &self.source, policy, references).expect("a graph")
    }
}

/// A label to ask of an object: one that it has, or any.
fn label(theirs: &original::Graph, names: usize, object: u32, random: &mut Random) -> u32 {
    let edges = theirs.edges(object);
    match random.below(8) {
        0..4 if edges.len() > 0 => edges.coarse(random.below(edges.len() as u64) as usize),
        4 => LOADER,
        5 => ARRAY_ELEMENT,
        _ => random.below(names as u64 + 1) as u32,
    }
}

/// A target to ask of an object: one that it holds, or any.
fn target(theirs: &original::Graph, object: u32, random: &mut Random) -> u32 {
    let targets = &theirs.all_targets()[theirs.span(object)];
    match random.chance(2) && !targets.is_empty() {
        true => random.pick(targets),
        false => random.below(u64::from(theirs.root) + 1) as u32,
    }
}

/// Questions about objects at random.
fn ask(ours: &Graph, theirs: &original::Graph, names: usize, random: &mut Random, tally: &mut Tally) -> Outcome {
    let enough = tally.questions + QUESTIONS;
    while tally.questions < enough {
        let object = random.below(u64::from(theirs.root)) as u32;
        let label = label(theirs, names, object, random);
        check::ask_field(ours, theirs, names, object, label, tally)?;
        check::ask_label(ours, theirs, object, target(theirs, object, random), tally)?;
        if random.chance(8) {
            check::ask_edges(ours, theirs, object, random, tally)?;
        }
    }
    Ok(())
}

/// One route under one policy: the account by the rules, every column, the questions, the incoming side.
fn route(imported: &Imported, route: Route, random: &mut Random, tally: &mut Tally) -> Result<Graph, String> {
    let case = &imported.case;
    same("refusal", verdict::refusal(case, route), None)?;
    let ours = Graph::build(&case.input(route)).map_err(|e| e.to_string())?;
    same("account", ours.account, verdict::account(case, route))?;
    let theirs = imported.original(route);
    check::columns(&ours, &theirs)?;
    check::questions(&ours, &theirs, case.names, random, tally)?;
    ask(&ours, &theirs, case.names, random, tally)?;
    incoming::compare(&ours, &theirs, random, tally)?;
    each::compare(&ours, &theirs, case.names, random, tally)?;
    tally.graph(Some(route), case.threads);
    tally.dangling += ours.dangling;
    check::count(&ours, tally);
    if route == Route::Copied {
        handed::compare(case, &handed::plain(&ours).lent(), random, tally)?;
    }
    println!(
        "{route:?}, {:?}: {} edges, {} weak pairs, {} dangling\n{}",
        case.policy(),
        ours.edge_count(),
        ours.weak_edges().len(),
        ours.dangling,
        ours.account
    );
    Ok(ours)
}

/// The whole of a dump file; how many differences there are.
pub fn run(path: &str, tally: &mut Tally) -> u64 {
    let mut imported = import(path).unwrap_or_else(|e| panic!("{path}: {e}"));
    let case = &imported.case;
    println!(
        "{} bytes, {} objects, {} classes, {} names, {} references copied, {} roots",
        imported.dump.file_size,
        case.ids.len(),
        case.class_ids.len(),
        case.names,
        case.codes.len(),
        case.roots.len()
    );
    let mut differences = 0;
    for by in ROUTES {
        let graphs: Vec<Graph> = (1..)
            .zip(ReferencePolicy::ALL)
            .filter_map(|(threads, policy)| {
                let case = &mut imported.case;
                (case.soft, case.weak, case.threads) = (policy.soft, policy.weak, threads);
                let built = route(&imported, by, &mut Random::new(threads as u64 - 1), tally);
                built.inspect_err(|difference| println!("{by:?}, {policy:?}: {difference}")).ok()
            })
            .collect();
        let compared = graphs.len();
        differences += 4 - compared as u64;
        if let Ok(graphs) = graphs.try_into()
            && let Err(difference) = policies::agree(&imported.case, &graphs, tally)
        {
            println!("{by:?}, the policies: {difference}");
            differences += 1;
        }
    }
    differences
}
