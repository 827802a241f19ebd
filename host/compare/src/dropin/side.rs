//! What the published files compute over a graph, by name. Compiled twice: `super::midden` is the original over its own `graph.rs`, or over ours.
use std::cell::RefCell;
use std::rc::Rc;

use super::midden::analysis::Heap;
use super::midden::dom::{self, DominatorTree, Reachability};
use super::midden::dump::{Dump, FastMap, Kind};
use super::midden::error::{Error, Result};
use super::midden::graph::{self, ARRAY_ELEMENT, Graph, LOADER};
use super::midden::parallel;
use super::midden::pattern::Pattern;
use super::oracle::{self, Ready};
use crate::case::{Case, Route};
use crate::dropin::{Found, Operation, found, wide};

/// A case as the side takes it, with its threads.
pub fn ready(case: &Case, route: Route) -> Ready {
    parallel::set_threads(case.threads.max(1));
    oracle::ready(case, route)
}

/// Its graph, or the words of the error.
pub fn graph(ready: &Ready, case: &Case, route: Route) -> std::result::Result<Graph, String> {
    told(ready.build((route == Route::Copied).then(|| oracle::references(case))))
}

/// The graph of a dump file by one route under one policy, and what is computed of it.
pub fn of_dump(path: &str, route: Route, (soft, weak): (bool, bool), some: usize) -> std::result::Result<Found, String> {
    parallel::set_threads(1);
    let (dump, references, source) = oracle::index(path).map_err(|e| e.to_string())?;
    let references = references.filter(|_| route == Route::Copied);
    let graph = told(graph::build(&dump, &source, graph::ReferencePolicy { soft, weak }, references))?;
    Ok(computed(&dump, &graph, some))
}

/// A refusal is an `Error::Dump`; the words are the same for any other.
fn told<T>(result: Result<T>) -> std::result::Result<T, String> {
    result.map_err(|error| if let Error::Dump(words) = error { words } else { format!("not a dump's error: {error}") })
}

/// Objects spread over the table.
fn spread(dump: &Dump, some: usize) -> impl Iterator<Item = u32> + '_ {
    let step = (dump.objects.len() / some.max(1)).max(1);
    (0..dump.objects.len() as u32).step_by(step)
}

/// All of it: the graph by its own methods, a graph of its parts, then what `dom.rs` and `analysis/` compute.
pub fn computed(dump: &Dump, graph: &Graph, some: usize) -> Found {
    let out = &mut Found::default();
    columns(out, graph);
    questions(out, dump, graph, some);
    let (targets, weak) = graph.parts();
    let (offsets, labels) = (graph.offsets().collect(), graph.all_labels().collect());
    columns(
        out,
        &Graph::from_parts(offsets, targets.iter().copied().collect(), labels, dump, weak.to_vec(), graph.dangling, graph.roots.clone()),
    );
    let (reach, tree) = (dom::reach(graph, dump), dom::dominators(graph, dump));
    reachability(out, dump, graph, &reach, &tree, some);
    dominators(out, dump, graph, &tree, some);
    let (heap, live) = Heap::build(dump, graph, &[], |heap| heap.live);
    out.add("live while the tree is built", [live]);
    sizes(out, dump, &heap, some);
    holders(out, dump, &heap, some);
    copies(out, dump, &heap);
    std::mem::take(out)
}

fn columns(out: &mut Found, graph: &Graph) {
    out.add("root", [graph.root]);
    out.add("roots", graph.roots.iter().copied());
    out.add("dangling", [graph.dangling]);
    out.add("edge count", [graph.edge_count()]);
    out.add("targets", graph.all_targets().iter().copied());
    out.add("offsets", graph.offsets());
    out.add("labels", graph.all_labels());
    out.add("weak edges", graph.weak_edges().iter().flat_map(|&(from, to)| [from, to]));
}

fn questions(out: &mut Found, dump: &Dump, graph: &Graph, some: usize) {
    for object in spread(dump, some) {
        let (span, edges) = (graph.span(object), graph.edges(object));
        out.add("span", [span.start as u64, span.end as u64, edges.len() as u64]);
        out.add("targets of", edges.targets());
        out.add("labels of", edges.labels());
        out.add("edges", edges.iter().flat_map(|(target, label)| [target, label]));
        out.add("coarse edges", edges.iter_coarse().flat_map(|(target, label)| [target, label]));
        out.add("coarse labels", (0..edges.len()).map(|k| edges.coarse(k)));
        out.add("weak referents", graph.weak_referents(object));
        out.add("label of", edges.targets().take(20).chain([object]).map(|target| found(graph.label_of(object, target))));
        // Not the name count itself: asked that, the original finds the loader.
        let first = (!dump.names.is_empty()).then_some(0);
        let labels = edges.iter_coarse().take(20).map(|(_, label)| label).chain(first).chain([LOADER, ARRAY_ELEMENT]);
        out.add("field, referent", labels.flat_map(|label| [found(graph.field(object, label)), found(graph.referent(object, label))]));
    }
}

fn reachability(out: &mut Found, dump: &Dump, graph: &Graph, reach: &Reachability, tree: &DominatorTree, some: usize) {
    out.add("reached", [reach.count, reach.bytes]);
    out.add("parents", (0..graph.root).map(|object| reach.parent(object, &tree.idom)));
    for object in spread(dump, some) {
        out.add("path", reach.path(graph.root, object, &tree.idom));
    }
    for object in spread(dump, some / 8) {
        for path in dom::paths(graph, dump, (reach, &tree.idom), object, 3) {
            out.add("paths", path);
        }
    }
    let weak = dom::weak_only(graph, dump, reach);
    out.add("weakly held", [weak.count, weak.bytes]);
    out.add("weakly held objects", (0..graph.root).map(|object| u32::from(weak.seen.get(object as usize))));
    let (count, bytes) = dom::weak_only_from(graph, dump, (reach, &tree.idom), |referrer| referrer % 2 == 0);
    out.add("weakly held by some", [count, bytes]);
}

fn dominators(out: &mut Found, dump: &Dump, graph: &Graph, tree: &DominatorTree, some: usize) {
    out.add("immediate dominators", tree.idom.iter().copied());
    out.add("retained", (0..graph.root).map(|object| tree.retained(object)));
    out.add("top level", tree.top_level().iter().copied());
    // Workers take the places of leaves as they come.
    if parallel::threads() == 1 {
        out.add("preorder", tree.preorder.iter().copied());
        out.add("subtree ends", tree.subtree_end.iter().copied());
        out.add("places in preorder", tree.preorder_index.iter().copied());
    }
    for object in spread(dump, some).chain([graph.root]) {
        out.add("children", tree.children(object));
        out.add("biggest child", [found(tree.biggest_child(object))]);
    }
    for object in spread(dump, some) {
        let mut below = tree.subtree(object).to_vec();
        below.sort_unstable();
        out.add("subtree", below);
        out.add("dominators", tree.dominators_of(graph.root, object));
    }
}

fn sizes(out: &mut Found, dump: &Dump, heap: &Heap<'_>, some: usize) {
    let parts = [heap.weak_only, heap.unreachable];
    out.add("heap", [heap.total, heap.live].into_iter().chain(parts.into_iter().flat_map(|part| [part.count, part.bytes])));
    let row = |row: &super::midden::analysis::ClassRow| [row.class.into(), row.instances, row.shallow, row.retained];
    let histogram = heap.histogram();
    out.add("histogram", histogram.iter().flat_map(row));
    for (name, package) in heap.packages(&histogram) {
        out.text("package", &name);
        out.add("package's row", row(&package));
    }
    out.add("grouped", heap.grouped_retained(|object| object % 7, 7));
    out.add("biggest of each class", heap.biggest_per_class().into_iter().flat_map(|(bytes, object)| [bytes, object.into()]));
    for object in spread(dump, some / 8) {
        let (rows, objects) = heap.retained_set(object);
        out.add("retained set", rows.iter().flat_map(row).chain([objects]));
    }
    for class in heap.classes_matching(&Pattern::parse("*")).into_iter().take(some) {
        let members = heap.members(class);
        out.add("owners", heap.owners_of(&members).into_iter().flat_map(|(class, bytes, total)| [class.into(), bytes, total]));
        out.add("members", members);
        out.add("instances", heap.instances_of(class));
    }
}

fn holders(out: &mut Found, dump: &Dump, heap: &Heap<'_>, some: usize) {
    for object in spread(dump, some / 8) {
        let held = heap.referrers_of(object);
        out.add("referrers", held.iter().flat_map(|by| [by.class.into(), by.label.into(), by.count]));
        out.add("referring objects", heap.referrer_objects(object, 10).into_iter().flat_map(|(source, label)| [source, label]));
        for path in heap.root_paths(object, 2) {
            out.add("labelled path", path.into_iter().flat_map(|(hop, label)| [hop.into(), found(label)]));
        }
    }
    for object in spread(dump, some) {
        out.text("path's key", &heap.path_key(object));
        out.text("root's note", &heap.root_note(object));
        out.add("reachable, weakly", [heap.reachable(object), heap.weakly_reachable(object)].map(u32::from));
        let fields = ["value", "next", "referent", "elementData", "table"].map(|name| found(heap.field(object, name)));
        out.add("fields by name", fields.into_iter().chain([found(heap.referent_of(object))]));
    }
}

/// Equal strings, arrays and boxed values, with the hashes of the index pass.
fn copies(out: &mut Found, dump: &Dump, heap: &Heap<'_>) {
    let hash = |array: u32| dump.array_hashes.as_ref().and_then(|hashes| hashes.get(array)).map(|[_, hash]| hash);
    let every = || (0..dump.objects.len() as u32).filter(|&object| heap.reachable(object));
    let array = |&object: &u32| dump.objects.kind(object as usize) == Kind::PrimitiveArray;
    let pair = |string: u32| heap.field(string, "value").filter(array).map(|array| (string, array));
    let strings: Vec<(u32, u32)> = every().filter(|&object| heap.is_string(object)).filter_map(pair).collect();
    let equal = heap.duplicates(&strings, hash);
    out.add("equal strings", [equal.wasted, equal.strings, equal.distinct]);
    out.add("groups of strings", equal.groups.iter().flat_map(|group| [group.string.into(), group.count, group.wasted]));
    let arrays = heap.hashable_arrays(&strings);
    let equal = heap.array_duplicates(&arrays, hash);
    out.add("equal arrays", [equal.wasted, equal.arrays, equal.distinct]);
    let none = FastMap::default();
    let boxed = heap.boxed(dump.boxed_values.as_ref().unwrap_or(&none));
    out.add("boxed", boxed.iter().flat_map(|row| [row.class.into(), row.instances, row.distinct, row.wasted]));
}

/// What takes time, for the benchmark: each gives a number that both sides must agree on. A build takes its ids with it, so there are some for each run.
pub fn operations<'a>(ready: &'a Ready, graph: &'a Graph, case: &'a Case, route: Route, runs: usize) -> Vec<Operation<'a>> {
    parallel::set_threads(1);
    let dump = &ready.dump;
    let reach = dom::reach(graph, dump);
    let heap = Rc::new(Heap::build(dump, graph, &[], |_| ()).0);
    let (sized, held) = (Rc::clone(&heap), Rc::clone(&heap));
    let ids: Vec<_> = (0..runs).map(|_| (route == Route::Copied).then(|| oracle::references(case))).collect();
    let ids = RefCell::new(ids);
    vec![
        ("build", Box::new(move || ready.build(ids.borrow_mut().pop().flatten()).map_or(0, |graph| graph.edge_count()))),
        ("reachability", Box::new(move || dom::reach(graph, dump).bytes)),
        ("dominators and retained sizes", Box::new(move || wide(dom::dominators(graph, dump).idom.iter().copied()))),
        ("the weakly held set, 100 times", Box::new(move || (0..100).map(|_| dom::weak_only(graph, dump, &reach).bytes).sum())),
        ("paths from the roots of 10000 objects, with labels", {
            Box::new(move || spread(dump, 10_000).map(|object| heap.root_path(object).len() as u64).sum())
        }),
        ("the histogram", Box::new(move || sized.histogram().iter().map(|row| row.retained).sum())),
        ("referrers of an object", Box::new(move || held.referrers_of(dump.objects.len() as u32 / 2).len() as u64)),
        ("every label", Box::new(move || wide(graph.all_labels()))),
    ]
}
