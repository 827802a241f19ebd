//! The worked dump of document 01, for the tests and the examples: each of them uses a part of it.
#![allow(dead_code)]
use yokefathom::{Classes, Graph, Input, Objects, ReferencePolicy, References, Refusal, Schema, Slots, Statics};

pub const OBJECTS: Objects<'static> =
    Objects { ids: &[256, 264, 512, 4096], kinds: &[0, 0, 1, 3], classes: &[0, 1, 0, 0], lengths: &[0, 0, 3, 0] };

/// Three names. Class 0 has a slot; class 1 is a weak reference; class 2 is dumped, with a static and a loader.
pub const SCHEMA: Schema<'static> = Schema {
    classes: Classes {
        ids: &[0, 0, 4096],
        loaders: &[0, 0, 512],
        dumped: &[0, 0, 1],
        kinds: &[0, 2, 0],
        slot_starts: &[0, 1, 2],
        slot_ends: &[1, 2, 2],
        static_starts: &[0, 0, 0],
        static_ends: &[0, 0, 1],
    },
    slots: Slots { offsets: &[0, 0], labels: &[0, 1], weak: &[0, 1] },
    statics: Statics { names: &[2], types: &[2], values: &[256] },
    names: 3,
};

pub const COPIED: References<'static> =
    References::Copied { codes: &[2, 1, 0, 1, u32::MAX], escape_places: &[4], escape_ids: &[9999], base: 256, starts: &[0, 1, 2, 5] };

/// What the objects hold, in bodies of this id size one behind the other.
pub fn bodies(id_size: usize) -> (Vec<u8>, [u64; 4], [u32; 4]) {
    let held = [264u64, 256, 0, 256, 9999];
    let bytes = held.iter().flat_map(|id| id.to_be_bytes()[8 - id_size..].to_vec()).collect();
    (bytes, [0, 1, 2, 5].map(|at| at * id_size as u64), [1, 1, 3, 0].map(|ids| ids * id_size as u32))
}

/// The dump by one route, under the policy that keeps nothing.
pub fn worked(references: References<'_>) -> Input<'_> {
    Input { objects: OBJECTS, schema: SCHEMA, references, roots: &[3, 0, 3], policy: ReferencePolicy::default() }
}

/// What becomes of the dump by the copied route, and by the raw route with both id sizes.
pub fn graphs(change: impl Fn(Input<'_>) -> Result<Graph, Refusal>) -> Vec<Result<Graph, Refusal>> {
    let raw = [4, 8].map(|id_size| {
        let (bytes, starts, lengths) = bodies(id_size);
        change(worked(References::Raw { bytes: &bytes, id_size, starts: &starts, lengths: &lengths }))
    });
    [change(worked(COPIED))].into_iter().chain(raw).collect()
}

/// The graph of the dump under a policy: every route gives the same one.
pub fn built(policy: ReferencePolicy) -> Graph {
    let mut graphs = graphs(|input| Graph::build(&Input { policy, ..input })).into_iter().map(|graph| graph.expect("a sound dump"));
    let graph = graphs.next().expect("the copied route");
    assert!(graphs.all(|other| other == graph), "the routes differ");
    graph
}
