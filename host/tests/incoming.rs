//! Who points here: the worked dump's incoming side under both policies, its labels in words, and objects that are held very often.
mod common;

use common::{COPIED, SCHEMA, built, worked};
use yokefathom::{ARRAY_ELEMENT, Graph, Input, LOADER, Objects, Parts, ReferencePolicy, References, Referrer, Refusal};

const KEEPS_NOTHING: ReferencePolicy = ReferencePolicy { soft: false, weak: false };
const KEEPS_WEAK: ReferencePolicy = ReferencePolicy { soft: false, weak: true };

/// How many hold each object.
fn in_degrees(graph: &Graph) -> Vec<usize> {
    let incoming = graph.incoming().expect("a built graph");
    (0..graph.object_count() as u32).map(|object| incoming.in_degree(object).expect("an object")).collect()
}

/// Those that hold an object, in words.
fn words(graph: &Graph, object: u32) -> Vec<String> {
    let incoming = graph.incoming().expect("a built graph");
    incoming.of(object).expect("an object").map(|referrer| referrer.to_string()).collect()
}

/// A graph without weak pairs and roots.
fn of_edges(offsets: &[u64], edges: &[(u32, u32)]) -> Graph {
    let (targets, labels): (Vec<u32>, Vec<u32>) = edges.iter().copied().unzip();
    Graph::from_parts(&SCHEMA, &Parts { offsets, targets: &targets, labels: &labels, ..Parts::default() }).expect("sound parts")
}

#[test]
fn entries_stand_by_the_object_held() -> Result<(), Refusal> {
    let graph = built(KEEPS_NOTHING);
    let incoming = graph.incoming()?;
    assert_eq!((incoming.sources(), incoming.places()), (&[2, 3, 0, 3][..], &[1, 2, 0, 3][..]));
    assert_eq!(in_degrees(&graph), [2, 1, 1, 0]);
    assert_eq!((incoming.span(0)?, incoming.span(2)?, incoming.span(3)?), (0..2, 3..4, 4..4));
    assert_eq!((incoming.sources_of(0)?, incoming.places_of(0)?), (&[2, 3][..], &[1, 2][..]));
    assert_eq!((incoming.sources_of(3)?, incoming.places_of(3)?), (&[][..], &[][..]), "nobody holds the class");
    let columns = incoming.columns();
    assert_eq!((columns.bases, columns.short), (&[0][..], &[0, 2, 3, 4, 4][..]));
    assert_eq!((columns.long_at, columns.long_value), (&[][..], &[][..]));
    assert_eq!(incoming.graph(), &graph);
    Ok(())
}

#[test]
fn what_the_policy_keeps_is_an_entry() -> Result<(), Refusal> {
    let graph = built(KEEPS_WEAK);
    let incoming = graph.incoming()?;
    assert_eq!((incoming.sources(), incoming.places()), (&[1, 2, 3, 0, 3][..], &[1, 2, 3, 0, 4][..]));
    assert_eq!(in_degrees(&graph), [3, 1, 1, 0]);
    assert_eq!(incoming.columns().short, [0, 3, 4, 5, 5]);
    assert_eq!(words(&graph, 0), ["field 1 of object 1", "element 1 of object 2", "field 2 of object 3"]);
    Ok(())
}

#[test]
fn each_entry_has_the_label_of_its_edge() -> Result<(), Refusal> {
    let graph = built(KEEPS_NOTHING);
    let incoming = graph.incoming()?;
    let [element, field] = [Referrer { object: 2, place: 1, label: ARRAY_ELEMENT + 1 }, Referrer { object: 3, place: 2, label: 2 }];
    let loader = Referrer { object: 3, place: 3, label: LOADER };
    assert_eq!(incoming.of(0)?.collect::<Vec<_>>(), [element, field]);
    assert_eq!((incoming.entry(0, 0)?, incoming.entry(0, 1)?, incoming.entry(2, 0)?), (element, field, loader));
    assert_eq!(incoming.of(3)?.next(), None);
    let mut left = incoming.of(0)?;
    assert_eq!((left.len(), left.next(), left.len()), (2, Some(element), 1));
    Ok(())
}

#[test]
fn entries_are_said_in_words() {
    let graph = built(KEEPS_NOTHING);
    assert_eq!(words(&graph, 0), ["element 1 of object 2", "field 2 of object 3"]);
    assert_eq!(words(&graph, 1), ["field 0 of object 0"]);
    assert_eq!(words(&graph, 2), ["the loader of object 3"]);
    assert_eq!(words(&graph, 3), [] as [&str; 0]);
    let last = Referrer { object: 17, place: 0, label: u32::MAX };
    assert_eq!(last.to_string(), "element 2147483647 of object 17");
}

#[test]
fn objects_and_entries_that_are_not_there_are_refused() -> Result<(), Refusal> {
    let graph = built(KEEPS_NOTHING);
    let incoming = graph.incoming()?;
    for object in [4, u32::MAX] {
        let index = Refusal::Index(u64::from(object));
        assert_eq!(incoming.in_degree(object), Err(index));
        assert_eq!(incoming.span(object), Err(index));
        assert_eq!(incoming.entry(object, 0), Err(index));
        assert_eq!(incoming.sources_of(object), Err(index));
        assert_eq!(incoming.places_of(object), Err(index));
        assert_eq!(incoming.of(object).map(|left| left.len()), Err(index));
    }
    for (object, degree) in [(0, 2), (1, 1), (2, 1), (3, 0)] {
        assert_eq!(incoming.entry(object, degree), Err(Refusal::Index(degree as u64)));
    }
    assert_eq!(incoming.entry(0, usize::MAX), Err(Refusal::Index(u64::MAX)));
    Ok(())
}

#[test]
fn without_objects_there_are_no_entries() {
    let none = References::Copied { codes: &[], escape_places: &[], escape_ids: &[], base: 0, starts: &[] };
    let input = Input { objects: Objects::default(), references: none, roots: &[], ..worked(COPIED) };
    for graph in [Graph::build(&input).expect("a sound dump"), of_edges(&[0], &[]), Graph::default()] {
        let incoming = graph.incoming().expect("a graph");
        assert_eq!((incoming.sources(), incoming.places()), (&[][..], &[][..]));
        assert_eq!((incoming.columns().bases, incoming.columns().short), (&[0][..], &[0][..]));
        assert_eq!(incoming.in_degree(0), Err(Refusal::Index(0)));
    }
}

/// Object 1 holds itself and the others by turns, often; the last index is too far from the one before for a code. Object 2 holds twice, too.
#[test]
fn one_that_holds_an_object_often_is_an_entry_each_time() -> Result<(), Refusal> {
    let index = |k| if k < 39 { 2 * k } else { 1_000_000 };
    let array = (0..40).map(|k| (k % 3, ARRAY_ELEMENT + index(k)));
    let edges: Vec<(u32, u32)> = array.chain([(1, 0), (0, 2), (1, LOADER)]).collect();
    let graph = of_edges(&[0, 0, 40, 43], &edges);
    let incoming = graph.incoming()?;
    for object in 0..3 {
        let to = |place: usize| (edges[place].0 == object).then_some((place, edges[place].1));
        let held = (0..edges.len()).filter_map(to);
        let expected: Vec<Referrer> =
            held.map(|(place, label)| Referrer { object: if place < 40 { 1 } else { 2 }, place, label }).collect();
        assert_eq!(incoming.of(object)?.collect::<Vec<_>>(), expected);
        let one_by_one: Result<Vec<Referrer>, Refusal> = (0..expected.len()).map(|k| incoming.entry(object, k)).collect();
        assert_eq!(one_by_one?, expected);
    }
    assert_eq!(words(&graph, 0).last().map(String::as_str), Some("field 2 of object 2"));
    Ok(())
}

/// An offset 65,535 and more above its base is long.
#[test]
fn an_object_may_be_held_very_often() -> Result<(), Refusal> {
    for count in [65_534, 65_535, 65_536] {
        let edges: Vec<(u32, u32)> = (0..count).map(|k| (0, ARRAY_ELEMENT + k)).collect();
        let graph = of_edges(&[0, 0, u64::from(count), u64::from(count)], &edges);
        let incoming = graph.incoming()?;
        assert_eq!(in_degrees(&graph), [count as usize, 0, 0]);
        let long: &[u32] = if count < 65_535 { &[] } else { &[1, 2, 3] };
        assert_eq!(incoming.columns().long_at, long);
        assert_eq!(incoming.columns().long_value, vec![u64::from(count); long.len()]);
        assert!(incoming.of(0)?.map(|referrer| (referrer.object, referrer.label)).eq(edges.iter().map(|edge| (1, edge.1))));
        assert_eq!(incoming.entry(0, 65_533)?.to_string(), "element 65533 of object 1");
    }
    Ok(())
}
