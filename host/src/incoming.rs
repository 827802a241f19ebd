//! Who points here: the incoming side of a graph, and for each object those that hold it.
use std::fmt;
use std::ops::Range;

use crate::answer::{value, values};
use crate::edges::Pairs;
use crate::ffi;
use crate::graph::{Graph, trimmed};
use crate::refusal::Refusal;
use crate::room::IncomingRoom;
use crate::{ARRAY_ELEMENT, LOADER};

/// The incoming side of a graph, which [`Graph::incoming`] makes: for each object its entries, one for each edge to it.
///
/// Every edge of the graph stands there exactly once and nothing else does, and an entry leads back to its edge. The entries of an object
/// stand in the order of their edges: by the object that refers, then by the edge's number. Weak pairs ([`Graph::weak_edges`]) and roots are
/// no entries.
#[derive(Clone, Debug)]
pub struct Incoming<'a> {
    graph: &'a Graph,
    sources: Vec<u32>,
    places: Vec<u32>,
    bases: Vec<u64>,
    short: Vec<u16>,
    long_at: Vec<u32>,
    long_value: Vec<u64>,
}

impl Graph {
    /// The incoming side of the graph: who holds each object, and by which edge. The time grows with the objects and edges. A graph that was
    /// built, or handed over as parts, is never refused: its columns read back, and there is room.
    pub fn incoming(&self) -> Result<Incoming<'_>, Refusal> {
        let columns = self.columns();
        let mut room = IncomingRoom::for_columns(&columns);
        let answer = room.invert(&columns);
        let counts = values(&answer)?;
        let (entries, long) = (counts[0] as usize, counts[1] as usize);
        Ok(Incoming {
            graph: self,
            sources: trimmed(room.sources, entries),
            places: trimmed(room.places, entries),
            bases: room.bases,
            short: room.short,
            long_at: trimmed(room.long_at, long),
            long_value: trimmed(room.long_value, long),
        })
    }
}

impl<'a> Incoming<'a> {
    /// The graph whose incoming side this is.
    pub fn graph(&self) -> &'a Graph {
        self.graph
    }

    /// How many edges go to `object`. 0 says that no object holds it: of a graph that was built this is the theorem `nobody_holds`, over the
    /// edges that the rules give each object of the input. Weak pairs are no entries, so an object with in-degree 0 may still be held weakly,
    /// and be a root.
    pub fn in_degree(&self, object: u32) -> Result<usize, Refusal> {
        let IncomingColumns { sources, places, bases, short, long_at, long_value } = self.columns();
        let mut answer = [0; 4];
        ffi::yokefathom_in_degree(object as usize, sources, places, bases, short, long_at, long_value, &mut answer);
        value(&answer).map(|count| count as usize)
    }

    /// Where `object`'s entries sit in [`Incoming::sources`] and [`Incoming::places`].
    pub fn span(&self, object: u32) -> Result<Range<usize>, Refusal> {
        let IncomingColumns { sources, places, bases, short, long_at, long_value } = self.columns();
        let mut answer = [0; 4];
        ffi::yokefathom_in_span(object as usize, sources, places, bases, short, long_at, long_value, &mut answer);
        values(&answer).map(|at| at[0] as usize..at[1] as usize)
    }

    /// Those that hold `object`, one for each edge to it, in the order of their edges.
    pub fn of(&self, object: u32) -> Result<Referrers<'_>, Refusal> {
        self.span(object).map(|left| Referrers { incoming: self, left, reading: None })
    }

    /// Entry `k` of `object`, as [`Incoming::of`] has it; INDEX with `k` where there are fewer. Its label is read for this entry alone, so
    /// whoever wants all of them asks [`Incoming::of`].
    pub fn entry(&self, object: u32, k: usize) -> Result<Referrer, Refusal> {
        let IncomingColumns { sources, places, bases, short, long_at, long_value } = self.columns();
        let mut answer = [0; 4];
        ffi::yokefathom_entry_at(object as usize, k, sources, places, bases, short, long_at, long_value, &mut answer);
        let found = values(&answer)?;
        let (source, place) = (found[0] as u32, found[1] as usize);
        let edges = self.graph.edges(source)?;
        Ok(Referrer { object: source, place, label: edges.exact(place - edges.start())? })
    }

    /// Every entry's object that refers, by the object held.
    pub fn sources(&self) -> &[u32] {
        &self.sources
    }

    /// Every entry's place in [`Graph::all_targets`], by the object held.
    pub fn places(&self) -> &[u32] {
        &self.places
    }

    /// The objects that refer to `object`, one for each edge to it, in order: a part of [`Incoming::sources`].
    pub fn sources_of(&self, object: u32) -> Result<&[u32], Refusal> {
        self.span(object).map(|span| &self.sources[span])
    }

    /// The places of the edges to `object` in [`Graph::all_targets`], rising: a part of [`Incoming::places`].
    pub fn places_of(&self, object: u32) -> Result<&[u32], Refusal> {
        self.span(object).map(|span| &self.places[span])
    }

    /// The columns as the call left them, for comparison and storage.
    pub fn columns(&self) -> IncomingColumns<'_> {
        IncomingColumns {
            sources: &self.sources,
            places: &self.places,
            bases: &self.bases,
            short: &self.short,
            long_at: &self.long_at,
            long_value: &self.long_value,
        }
    }
}

/// The used parts of the columns of a graph's incoming side.
#[derive(Clone, Copy, Debug, PartialEq, Eq)]
pub struct IncomingColumns<'a> {
    /// Every entry's object that refers, by the object held.
    pub sources: &'a [u32],
    /// Every entry's place in the target column.
    pub places: &'a [u32],
    /// Every 256th offset of the entries.
    pub bases: &'a [u64],
    /// Every offset above its base; 65,535 stands for one of the long list.
    pub short: &'a [u16],
    /// The places of the long offsets.
    pub long_at: &'a [u32],
    /// The long offsets, whole.
    pub long_value: &'a [u64],
}

/// One that holds an object, and by which edge. Printed, it says as what the object is held: `element 3 of object 17`.
#[derive(Clone, Copy, Debug, PartialEq, Eq, Hash)]
pub struct Referrer {
    /// The object that refers.
    pub object: u32,
    /// The place of its edge in [`Graph::all_targets`].
    pub place: usize,
    /// The edge's exact label, an element's with its index.
    pub label: u32,
}

/// As what the object is held: an element by its index, a field by the number of its name, or the loader.
impl fmt::Display for Referrer {
    fn fmt(&self, f: &mut fmt::Formatter<'_>) -> fmt::Result {
        match self.label {
            LOADER => write!(f, "the loader")?,
            ARRAY_ELEMENT.. => write!(f, "element {}", self.label - ARRAY_ELEMENT)?,
            name => write!(f, "field {name}")?,
        }
        write!(f, " of object {}", self.object)
    }
}

/// Those that hold an object, in the order of their edges. The edges of one that holds it more than once are read once.
#[derive(Clone, Debug)]
pub struct Referrers<'a> {
    incoming: &'a Incoming<'a>,
    left: Range<usize>,
    reading: Option<Reading<'a>>,
}

impl Iterator for Referrers<'_> {
    type Item = Referrer;

    fn next(&mut self) -> Option<Referrer> {
        let at = self.left.next()?;
        let (object, place) = (self.incoming.sources[at], self.incoming.places[at] as usize);
        let label = match &mut self.reading {
            Some(reading) if reading.object == object => reading.label_at(place),
            other => other.insert(Reading::of(self.incoming.graph, object)).label_at(place),
        };
        Some(Referrer { object, place, label })
    }

    fn size_hint(&self) -> (usize, Option<usize>) {
        self.left.size_hint()
    }
}

impl ExactSizeIterator for Referrers<'_> {}

/// The edges of an object that refers, from a place on: entries of one object follow each other, and their places rise.
#[derive(Clone, Debug)]
struct Reading<'a> {
    object: u32,
    place: usize,
    edges: Pairs<'a>,
}

impl<'a> Reading<'a> {
    fn of(graph: &'a Graph, object: u32) -> Reading<'a> {
        let edges = graph.edges(object).expect("an object of the graph");
        Reading { object, place: edges.start(), edges: edges.iter() }
    }

    /// The exact label of the edge at a place that is not before the one reached.
    fn label_at(&mut self, place: usize) -> u32 {
        let (_, label) = self.edges.nth(place - self.place).expect("an entry leads back to an edge of its object");
        self.place = place + 1;
        label
    }
}

#[cfg(test)]
mod tests {
    use super::*;
    use crate::graph::Columns;

    /// Sound columns: object 0 holds 1 by field 5, object 2 holds 0 by two elements, the second of them far behind the first.
    const SOUND: Columns<'static> = Columns {
        targets: &[1, 0, 0],
        weak_from: &[],
        weak_to: &[],
        bases: &[0],
        short: &[0, 1, 1, 3],
        long_at: &[],
        long_value: &[],
        fields: &[5],
        table: &[],
        escape_at: &[2],
        escape_label: &[ARRAY_ELEMENT + 40_000],
        codes: &[0, 0x8000, 0xFFFF],
    };

    /// Room for three entries of three objects and some to spare, full of nines.
    fn nines() -> IncomingRoom {
        IncomingRoom {
            sources: vec![9; 4],
            places: vec![9; 4],
            bases: vec![9; 2],
            short: vec![9; 5],
            long_at: vec![9; 1],
            long_value: vec![9; 1],
            working: vec![9; 5],
        }
    }

    /// What a call into these columns says. After a refusal all of them are zero.
    fn says(columns: &Columns<'_>, mut room: IncomingRoom) -> Result<Vec<u64>, Refusal> {
        let answer = room.invert(columns);
        let said = values(&answer).map(<[u64]>::to_vec);
        if said.is_err() {
            let narrow = [&room.sources, &room.places, &room.long_at].into_iter().flatten().all(|&left| left == 0);
            let wide = [&room.bases, &room.long_value, &room.working].into_iter().flatten().all(|&left| left == 0);
            assert!(narrow && wide && room.short.iter().all(|&left| left == 0), "something is left behind a refusal: {room:?}");
        }
        said
    }

    #[test]
    fn zeros_stand_behind_the_entries() {
        let mut room = nines();
        assert_eq!(room.invert(&SOUND), [3, 0, 3, 0]);
        assert_eq!((room.sources, room.places), (vec![2, 2, 0, 0], vec![1, 2, 0, 0]));
        assert_eq!((room.bases, room.short), (vec![0, 0], vec![0, 2, 3, 3, 0]));
        assert_eq!((room.long_at, room.long_value, room.working), (vec![0], vec![0], vec![0; 5]));
    }

    /// Edges before the first offset belong to no object, and are no entries.
    #[test]
    fn only_the_edges_of_objects_are_entries() {
        assert_eq!(says(&Columns { short: &[1, 1, 1, 3], ..SOUND }, nines()), Ok(vec![2, 0]));
        for short in [&[][..], &[0]] {
            let none = Columns { short, long_at: &[9, 9], escape_at: &[], ..SOUND };
            assert_eq!(says(&none, nines()), Ok(vec![0, 0]), "with no object nothing is read");
        }
    }

    #[test]
    fn the_lowest_object_that_cannot_be_read_back_is_refused() {
        let unread = [
            (0, Columns { targets: &[3, 3, 0], ..SOUND }),
            (2, Columns { targets: &[1, 0, 3], ..SOUND }),
            (2, Columns { targets: &[1, 0], ..SOUND }),
            (2, Columns { codes: &[0, 0x8000], ..SOUND }),
            (0, Columns { codes: &[1, 0x8000, 0xFFFF], ..SOUND }),
            (2, Columns { codes: &[0, 0x8000, 0x7FFF], ..SOUND }),
            (0, Columns { fields: &[ARRAY_ELEMENT], ..SOUND }),
            (2, Columns { escape_at: &[1], ..SOUND }),
            (2, Columns { escape_label: &[5], ..SOUND }),
            (0, Columns { escape_label: &[], ..SOUND }),
            (0, Columns { escape_at: &[2, 2], escape_label: &[ARRAY_ELEMENT + 40_000; 2], ..SOUND }),
            (0, Columns { long_at: &[7, 7], long_value: &[0, 0], ..SOUND }),
            (0, Columns { long_value: &[0], ..SOUND }),
            (1, Columns { short: &[0, 2, 1, 3], ..SOUND }),
            (2, Columns { short: &[0, 1, 1, 4], ..SOUND }),
            (2, Columns { short: &[0, 1, 1, 65_535], ..SOUND }),
            (0, Columns { bases: &[], ..SOUND }),
        ];
        for (object, columns) in unread {
            for room in [nines(), IncomingRoom::default()] {
                assert_eq!(says(&columns, room), Err(Refusal::Columns(object)), "{columns:?}");
            }
        }
    }

    type Cut = fn(&mut IncomingRoom);

    #[test]
    fn a_column_that_is_too_short_is_refused() {
        assert_eq!(says(&SOUND, IncomingRoom::default()), Err(Refusal::Room(10)));
        let short: [(u64, Cut); 5] = [
            (10, |room| room.sources.truncate(2)),
            (10, |room| room.places.truncate(2)),
            (11, |room| room.bases.clear()),
            (11, |room| room.short.truncate(3)),
            (11, |room| room.working.truncate(3)),
        ];
        for (buffer, cut) in short {
            let mut room = nines();
            cut(&mut room);
            assert_eq!(says(&SOUND, room), Err(Refusal::Room(buffer)));
        }
    }
}
