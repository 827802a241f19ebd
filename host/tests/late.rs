//! Labels of late edges (M-106): read from the nearest escape, they are the ones handed over.
use yokefathom::{ARRAY_ELEMENT, Classes, Graph, LOADER, Parts, Refusal, Schema, Slots, Statics};

const SCHEMA: Schema<'static> = Schema {
    classes: Classes {
        ids: &[],
        loaders: &[],
        dumped: &[],
        kinds: &[],
        slot_starts: &[],
        slot_ends: &[],
        static_starts: &[],
        static_ends: &[],
    },
    slots: Slots { offsets: &[], labels: &[], weak: &[] },
    statics: Statics { names: &[], types: &[], values: &[] },
    names: 1,
};

/// Object 0 holds the objects 1 to 300, most by an element. Elements 80 and 200 need an escape. Edge 40 is a loader. Edge 210 is a field that no class has: it
/// has an escape too, and is no stop on the way back.
fn labels() -> Vec<u32> {
    let mut next = 0;
    let element = |edge: u32| {
        next += match edge {
            80 | 200 => 40_000,
            _ => edge % 3,
        };
        next += 1;
        ARRAY_ELEMENT + next - 1
    };
    let mut labels: Vec<u32> = (0..300).map(element).collect();
    (labels[40], labels[210]) = (LOADER, 0);
    labels
}

fn graph(labels: &[u32]) -> Graph {
    let held = labels.len() as u64;
    let offsets: Vec<u64> = std::iter::once(0).chain((0..=held).map(|_| held)).collect();
    let targets: Vec<u32> = (1..=held as u32).collect();
    let parts = Parts { offsets: &offsets, targets: &targets, labels, weak_from: &[], weak_to: &[], roots: &[], dangling: 0 };
    Graph::from_parts(&SCHEMA, &parts).expect("sound columns")
}

#[test]
fn every_label_is_the_one_handed_over() {
    let labels = labels();
    let graph = graph(&labels);
    assert_eq!(graph.columns().escape_at, [80, 200, 210]);
    let edges = graph.edges(0).expect("an object");
    for (k, &label) in labels.iter().enumerate() {
        assert_eq!(edges.exact(k), Ok(label), "edge {k}");
        assert_eq!(graph.label_of(0, k as u32 + 1), Ok(Some(label)), "edge {k} by its target");
    }
    assert_eq!(graph.label_of(0, 0), Ok(None));
    assert_eq!(edges.exact(labels.len()), Err(Refusal::Index(300)));
}
