//! The same references under every policy (M-111): dumps built four times, by both routes.
mod common;

use common::graphs;
use yokefathom::{Classes, Graph, Input, Objects, ReferencePolicy, References, Refusal, Schema, Slots, Statics};

/// Five classes, of every reference kind. The first has no weak slot; the others have a weak slot on either side of one that is not.
const SCHEMA: Schema<'static> = Schema {
    classes: Classes {
        ids: &[0; 5],
        loaders: &[0; 5],
        dumped: &[0; 5],
        kinds: &[0, 1, 2, 3, 4],
        slot_starts: &[0, 3, 3, 3, 3],
        slot_ends: &[3, 6, 6, 6, 6],
        static_starts: &[0; 5],
        static_ends: &[0; 5],
    },
    slots: Slots { offsets: &[0, 8, 16, 0, 8, 16], labels: &[0, 1, 2, 0, 1, 2], weak: &[0, 0, 0, 1, 0, 1] },
    statics: Statics { names: &[], types: &[], values: &[] },
    names: 3,
};

/// An instance of each class, with ids 8 to 40 in steps of 8. Targets repeat; one is null, and two are of no object.
const HELD: [u64; 15] = [16, 8, 16, 8, 24, 8, 40, 99, 40, 8, 24, 0, 40, 98, 16];

/// The dump of these instances under a policy, by the raw route.
fn kinds(policy: ReferencePolicy) -> Result<Graph, Refusal> {
    let bytes: Vec<u8> = HELD.iter().flat_map(|id| id.to_be_bytes()).collect();
    Graph::build(&Input {
        objects: Objects { ids: &[8, 16, 24, 32, 40], kinds: &[0; 5], classes: &[0, 1, 2, 3, 4], lengths: &[0; 5] },
        schema: SCHEMA,
        references: References::Raw { bytes: &bytes, id_size: 8, starts: &[0, 24, 48, 72, 96], lengths: &[24; 5] },
        roots: &[4, 1, 4],
        policy,
    })
}

/// Each dump under every policy: the worked one by each route, and the one above.
fn dumps() -> Vec<[Graph; 4]> {
    let sound = |graph: Result<Graph, Refusal>| graph.expect("a sound dump");
    let [neither, soft, weak, both] = ReferencePolicy::ALL.map(|policy| graphs(|input| Graph::build(&Input { policy, ..input })));
    let worked = neither.into_iter().zip(soft).zip(weak).zip(both).map(|(((n, s), w), b)| [n, s, w, b].map(sound));
    worked.chain([ReferencePolicy::ALL.map(|policy| sound(kinds(policy)))]).collect()
}

fn edges(graph: &Graph, object: u32) -> Vec<(u32, u32)> {
    graph.edges(object).expect("an object").iter().collect()
}

fn objects(graph: &Graph) -> std::ops::Range<u32> {
    0..graph.object_count() as u32
}

#[test]
fn no_policy_loses_a_reference() {
    for graphs in dumps() {
        let [first, ..] = &graphs;
        for graph in &graphs {
            assert_eq!(graph.account.edges() + graph.account.weak(), first.account.edges() + first.account.weak());
            assert_eq!((graph.dangling, &graph.roots), (first.dangling, &first.roots));
            for ((kind, row), (_, same)) in graph.account.kinds().into_iter().zip(first.account.kinds()) {
                assert_eq!((row.edges + row.weak, row.missing), (same.edges + same.weak, same.missing), "{kind}");
            }
            for object in objects(graph) {
                assert_eq!(graph.reached(object).expect("an object"), first.reached(object).expect("an object"), "object {object}");
            }
        }
    }
}

/// The policies are seen at work: they differ in what is an edge and what a weak pair.
#[test]
fn the_policies_differ_in_what_is_weak() {
    let graphs = ReferencePolicy::ALL.map(|policy| kinds(policy).expect("a sound dump"));
    let counts = graphs.each_ref().map(|graph| (graph.edge_count(), graph.weak_edges().len(), graph.dangling));
    assert_eq!(counts, [(5, 7, 2), (7, 5, 2), (10, 2, 2), (12, 0, 2)]);
    assert_eq!(
        graphs.each_ref().map(|graph| edges(graph, 1)),
        [vec![(2, 1)], vec![(0, 0), (2, 1), (0, 2)], vec![(2, 1)], vec![(0, 0), (2, 1), (0, 2)]]
    );
}

/// Keeping more never removes an edge, nor changes the order of those that were there.
#[test]
fn keeping_more_removes_no_edge() {
    for graphs in dumps() {
        for (less, fewer) in ReferencePolicy::ALL.into_iter().zip(&graphs) {
            for (more, all) in ReferencePolicy::ALL.into_iter().zip(&graphs).filter(|(more, _)| more.covers(less)) {
                for object in objects(all) {
                    let mut rest = edges(all, object).into_iter();
                    let found = edges(fewer, object).into_iter().all(|edge| rest.any(|other| other == edge));
                    assert!(found, "object {object}: an edge under {less:?} is not there under {more:?}");
                }
            }
        }
    }
}

/// Objects 0 of both dumps, and all arrays and classes, are of classes without a weak slot.
#[test]
fn without_a_weak_slot_nothing_changes() {
    for graphs in dumps() {
        let [first, ..] = &graphs;
        let plain = objects(first).filter(|&object| object != 1 && (first.object_count() == 4 || object == 0));
        for (object, graph) in plain.flat_map(|object| graphs.iter().map(move |graph| (object, graph))) {
            assert_eq!(edges(graph, object), edges(first, object), "object {object}");
            assert!(graph.weak_referents(object).expect("an object").is_empty());
        }
    }
}
