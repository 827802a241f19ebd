//! What a user of [`Graph`] tries first: the worked dump by both routes, the questions, and refusals in words.
mod common;

use common::{OBJECTS, SCHEMA, bodies, graphs, worked};
use yokefathom::{ARRAY_ELEMENT, Account, Classes, Graph, Input, LOADER, Objects, Parts, ReferencePolicy, References, Refusal, Schema};

/// The graph under the policy that keeps nothing.
fn built() -> Graph {
    common::built(ReferencePolicy::default())
}

#[test]
fn both_routes_build_the_worked_dump() {
    let graph = built();
    assert_eq!((graph.object_count(), graph.edge_count(), graph.dangling), (4, 4, 1));
    assert_eq!(graph.offsets().collect::<Vec<_>>(), [0, 1, 1, 2, 4]);
    assert_eq!(graph.all_targets(), [1, 0, 0, 2]);
    assert_eq!(graph.all_labels().collect::<Vec<_>>(), [0, ARRAY_ELEMENT + 1, 2, LOADER]);
    assert_eq!(graph.columns().codes, [0, 0x8001, 2, 3]);
    assert_eq!(graph.weak_edges().collect::<Vec<_>>(), [(1, 0)]);
    assert_eq!(graph.roots, [0, 3]);
    assert_eq!(graph.account, Account::from([[1, 1, 0], [1, 0, 1], [1, 0, 0], [1, 0, 0]]));
}

#[test]
fn the_account_is_the_graphs() {
    for policy in ReferencePolicy::ALL {
        for graph in graphs(|input| Graph::build(&Input { policy, ..input })) {
            let graph = graph.expect("a sound dump");
            let account = graph.account;
            assert_eq!(account.total(), 6);
            assert_eq!(account.edges(), graph.edge_count());
            assert_eq!(account.weak(), graph.weak_edges().len() as u64);
            assert_eq!(account.missing(), graph.dangling);
            assert_eq!(account.weak(), u64::from(!policy.weak), "class 1 is a weak reference");
        }
    }
}

#[test]
fn questions_are_answered() -> Result<(), Refusal> {
    let graph = built();
    assert_eq!((graph.span(3)?, graph.degree(3)?, graph.degree(1)?), (2..4, 2, 0));
    assert_eq!(graph.field(0, 0)?, Some(1));
    assert_eq!(graph.field(2, ARRAY_ELEMENT)?, Some(0));
    assert_eq!(graph.field(2, ARRAY_ELEMENT + 1)?, None);
    assert_eq!(graph.field(3, LOADER)?, Some(2));
    assert_eq!(graph.field(3, 3)?, None, "the name count is no label");
    assert_eq!((graph.field(1, 1)?, graph.referent(1, 1)?), (None, Some(0)));
    assert_eq!(graph.weak_referents(1)?, [0]);
    assert_eq!((graph.label_of(3, 2)?, graph.label_of(3, 1)?), (Some(LOADER), None));
    Ok(())
}

#[test]
fn edges_are_read_in_order() -> Result<(), Refusal> {
    let graph = built();
    let edges = graph.edges(3)?;
    assert_eq!((edges.len(), edges.is_empty(), edges.targets()), (2, false, &[0, 2][..]));
    assert_eq!(edges.iter().collect::<Vec<_>>(), [(0, 2), (2, LOADER)]);
    assert_eq!(edges.labels().collect::<Vec<_>>(), [2, LOADER]);
    assert_eq!((edges.exact(1)?, edges.label_of(0)?), (LOADER, Some(2)));
    assert_eq!(edges.exact(2), Err(Refusal::Index(2)));
    let element = graph.edges(2)?;
    assert_eq!((element.exact(0)?, element.coarse(0)?), (ARRAY_ELEMENT + 1, ARRAY_ELEMENT));
    assert_eq!(element.iter_coarse().collect::<Vec<_>>(), [(0, ARRAY_ELEMENT)]);
    assert!(graph.edges(1)?.is_empty());
    Ok(())
}

#[test]
fn one_call_writes_all_edges_of_an_object() {
    let graph = built();
    let (mut targets, mut labels) = ([9; 3], [9; 2]);
    assert_eq!(graph.object_edges(3, &mut targets, &mut labels), Ok(2));
    assert_eq!((targets, labels), ([0, 2, 0], [2, LOADER]), "a zero stands behind them");
    assert_eq!(graph.object_edges(1, &mut [], &mut []), Ok(0), "no edges need no room");
    for (lent, object, refusal) in [(1, 3, Refusal::Room(23)), (0, 2, Refusal::Room(23)), (2, 4, Refusal::Index(4))] {
        for lengths in [[lent, 3], [3, lent]] {
            let [mut targets, mut labels] = lengths.map(|length| vec![9; length]);
            assert_eq!(graph.object_edges(object, &mut targets, &mut labels), Err(refusal));
            assert!(targets.iter().chain(&labels).all(|&left| left == 0), "something is left behind {refusal}");
        }
    }
}

/// Forty elements, more than the iterator holds itself; the last index is too far from the one before for a code.
#[test]
fn many_edges_are_read_in_order() -> Result<(), Refusal> {
    let index = |k| if k < 39 { 2 * k } else { 1_000_000 };
    let edges: Vec<(u32, u32)> = (0..40).map(|k| (k % 3, ARRAY_ELEMENT + index(k))).collect();
    let (targets, labels): (Vec<u32>, Vec<u32>) = edges.iter().copied().unzip();
    let parts =
        Parts { offsets: &[0, 0, 40, 40], targets: &targets, labels: &labels, weak_from: &[], weak_to: &[], roots: &[], dangling: 0 };
    let graph = Graph::from_parts(&SCHEMA, &parts)?;
    assert_eq!(graph.columns().escape_at, [39]);
    assert_eq!(graph.edges(1)?.iter().len(), 40);
    assert_eq!(graph.edges(1)?.iter().collect::<Vec<_>>(), edges);
    let mut rest = graph.edges(1)?.iter();
    assert_eq!(rest.next(), Some(edges[0]));
    let mut at_once = Vec::new();
    rest.for_each(|edge| at_once.push(edge));
    assert_eq!(at_once, edges[1..]);
    assert_eq!(graph.edges(0)?.iter().next(), None);
    Ok(())
}

#[test]
fn a_stored_graph_comes_back() -> Result<(), Refusal> {
    let graph = built();
    let (offsets, labels): (Vec<u64>, Vec<u32>) = (graph.offsets().collect(), graph.all_labels().collect());
    let (weak_from, weak_to): (Vec<u32>, Vec<u32>) = graph.weak_edges().unzip();
    let parts = Parts {
        offsets: &offsets,
        targets: graph.all_targets(),
        labels: &labels,
        weak_from: &weak_from,
        weak_to: &weak_to,
        roots: &graph.roots,
        dangling: graph.dangling,
    };
    assert_eq!(Graph::from_parts(&SCHEMA, &parts)?, graph.without_account());
    let wrong = Graph::from_parts(&SCHEMA, &Parts { targets: &[1, 0, 4, 2], ..parts }).expect_err("object 4 is none");
    assert_eq!(wrong, Refusal::Parts { column: 3, position: 2 });
    assert_eq!(wrong.to_string(), "PARTS (refusal 10): the targets handed over are wrong at position 2");
    Ok(())
}

/// What a changed dump is refused with, by every route, in words.
fn words(change: impl Fn(Input<'_>) -> Result<Graph, Refusal>) -> String {
    let mut all: Vec<String> = graphs(change).into_iter().map(|graph| graph.expect_err("a damaged dump").to_string()).collect();
    all.dedup();
    all.join(" / ")
}

#[test]
fn refusals_say_what_is_wrong() {
    let objects = |objects| words(|input| Graph::build(&Input { objects, ..input }));
    assert_eq!(objects(Objects { kinds: &[0], ..OBJECTS }), "LENGTHS (refusal 1): columns of one table differ in length");
    let twice = Objects { ids: &[256, 256, 512, 4096], ..OBJECTS };
    assert_eq!(objects(twice), "OBJECT (refusal 3): object 1 has a wrong id, kind, class or length");
    let schema = |schema| words(|input| Graph::build(&Input { schema, ..input }));
    let flag = Schema { classes: Classes { dumped: &[0, 0, 2], ..SCHEMA.classes }, ..SCHEMA };
    assert_eq!(schema(flag), "CLASS (refusal 4): class 2 has a wrong flag, kind, range, slot or static, or is found badly");
    assert_eq!(words(|input| Graph::build(&Input { roots: &[0, 4], ..input })), "ROOT (refusal 7): root 1 is no object");
    let graph = built();
    assert_eq!(graph.span(4).expect_err("no object").to_string(), "INDEX (refusal 11): there is no object or edge 4");
}

#[test]
fn refusals_have_numbers_names_and_places() {
    let copied =
        References::Copied { codes: &[2, 1, 0, 1, u32::MAX], escape_places: &[], escape_ids: &[], base: 256, starts: &[0, 1, 2, 5] };
    let refusal = Graph::build(&worked(copied)).expect_err("an escape is missing");
    assert_eq!((refusal.number(), refusal.name(), refusal.place()), (5, "COPIED", 4));
    let (bytes, starts, lengths) = bodies(8);
    let raw = References::Raw { bytes: &bytes[..39], id_size: 8, starts: &starts, lengths: &lengths };
    let refusal = Graph::build(&worked(raw)).expect_err("a body ends past the bytes");
    assert_eq!((refusal.number(), refusal.name(), refusal.place()), (6, "SPAN", 2));
    let odd = References::Raw { bytes: &bytes, id_size: 5, starts: &starts, lengths: &lengths };
    assert_eq!(Graph::build(&worked(odd)), Err(Refusal::Limit));
    let error: Box<dyn std::error::Error> = refusal.into();
    assert_eq!(error.to_string(), "SPAN (refusal 6): the part of object 2 ends past its column, or is no array's");
}
