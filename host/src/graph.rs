//! The graph: its builds, its columns, and the questions, by the short columns first.
use std::ops::Range;

use crate::account::Account;
use crate::answer::{Counts, found, halves, values};
use crate::edges::Edges;
use crate::ffi;
use crate::input::{Input, Parts, Schema};
use crate::refusal::Refusal;
use crate::room::{CodedRoom, Room};
use crate::whole::Whole;

/// The object graph: out-edges per object, and the roots.
#[derive(Clone, Debug, Default, PartialEq, Eq)]
pub struct Graph {
    targets: Vec<u32>,
    weak_from: Vec<u32>,
    weak_to: Vec<u32>,
    bases: Vec<u64>,
    short: Vec<u16>,
    long_at: Vec<u32>,
    long_value: Vec<u64>,
    fields: Vec<u32>,
    table: Vec<u16>,
    escape_at: Vec<u64>,
    escape_label: Vec<u32>,
    codes: Vec<u16>,
    /// References to ids that no object has (in a graph of [`Graph::from_parts`], the number that was handed over).
    pub dangling: u64,
    /// Distinct root objects, sorted (as they were handed over, in a graph of [`Graph::from_parts`]).
    pub roots: Vec<u32>,
    /// What became of every reference; zero in a graph of [`Graph::from_parts`].
    pub account: Account,
}

/// A column cut to its used length.
pub(crate) fn trimmed<T>(mut column: Vec<T>, used: usize) -> Vec<T> {
    column.truncate(used);
    column.shrink_to_fit();
    column
}

impl Graph {
    /// The graph of an input, by the route of its references; or why there is none.
    pub fn build(input: &Input<'_>) -> Result<Graph, Refusal> {
        for second in [false, true] {
            let mut room = Room::for_input(input, second);
            let mut account = [[0; 3]; 4];
            match Counts::of(&room.build(input, &mut account)) {
                Err(Refusal::Room(_)) if !second => {}
                Err(refusal) => return Err(refusal),
                Ok(counts) => {
                    drop((room.labels, room.working));
                    return Ok(Graph {
                        targets: trimmed(room.targets, counts.edges),
                        weak_from: trimmed(room.weak_from, counts.weak),
                        weak_to: trimmed(room.weak_to, counts.weak),
                        roots: trimmed(room.roots, counts.roots),
                        account: account.into(),
                        ..Graph::coded(room.coded, &counts)
                    });
                }
            }
        }
        unreachable!("the second room holds whatever the input needs")
    }

    /// The graph whose plain columns these are, as a cache stores them. The weak pairs and roots are kept as they are handed over.
    pub fn from_parts(schema: &Schema<'_>, parts: &Parts<'_>) -> Result<Graph, Refusal> {
        let mut room = CodedRoom::for_parts(schema, parts);
        let counts = Counts::of(&room.take_parts(schema, parts))?;
        Ok(Graph {
            targets: parts.targets.to_vec(),
            weak_from: parts.weak_from.to_vec(),
            weak_to: parts.weak_to.to_vec(),
            roots: parts.roots.to_vec(),
            ..Graph::coded(room, &counts)
        })
    }

    /// The columns of buffers 4 to 9, cut to their used lengths.
    fn coded(room: CodedRoom, counts: &Counts) -> Graph {
        Graph {
            bases: room.bases,
            short: room.short,
            long_at: trimmed(room.long_at, counts.long),
            long_value: trimmed(room.long_value, counts.long),
            fields: trimmed(room.fields, counts.fields),
            table: room.table,
            escape_at: trimmed(room.escape_at, counts.escapes),
            escape_label: trimmed(room.escape_label, counts.escapes),
            codes: trimmed(room.codes, counts.edges),
            dangling: counts.dangling,
            ..Graph::default()
        }
    }

    /// How many objects there are; the original's virtual root has this number.
    pub fn object_count(&self) -> usize {
        self.short.len().saturating_sub(1)
    }

    /// Every edge's target, object by object.
    #[inline]
    pub fn all_targets(&self) -> &[u32] {
        &self.targets
    }

    /// How many edges there are in all.
    pub fn edge_count(&self) -> u64 {
        self.targets.len() as u64
    }

    /// Where the short offsets alone say that `object`'s edges start and end.
    #[inline]
    fn short_span(&self, object: u32) -> Option<(u32, u32)> {
        halves(ffi::yokefathom_lean_span(object as usize, &self.bases, &self.short, self.codes.len(), self.targets.len()))
    }

    /// Where `object`'s edges sit in [`Graph::all_targets`].
    #[inline]
    pub fn span(&self, object: u32) -> Result<Range<usize>, Refusal> {
        match self.short_span(object) {
            Some((start, end)) => Ok(start as usize..end as usize),
            None => Whole(self.columns()).span(object),
        }
    }

    /// How many edges an object has.
    #[inline]
    pub fn degree(&self, object: u32) -> Result<usize, Refusal> {
        match self.short_span(object) {
            Some((start, end)) => Ok((end - start) as usize),
            None => Whole(self.columns()).degree(object),
        }
    }

    /// One object's edges.
    #[inline]
    pub fn edges(&self, object: u32) -> Result<Edges<'_>, Refusal> {
        self.span(object).map(|span| Edges::new(self, object, span))
    }

    /// The targets and the exact labels of all of `object`'s edges, written from the front of two columns with zeros behind them: how many they
    /// are. Where a column is shorter than they are, ROOM 23; after any refusal both columns are zero.
    #[inline]
    pub fn object_edges(&self, object: u32, own_targets: &mut [u32], own_labels: &mut [u32]) -> Result<usize, Refusal> {
        let Columns { bases, short, codes, targets, fields, .. } = self.columns();
        let reply = ffi::yokefathom_lean_object_edges(object as usize, bases, short, codes, targets, fields, own_targets, own_labels);
        match reply {
            0 => Whole(self.columns()).object_edges(object, own_targets, own_labels),
            _ => Ok((reply - 2) as usize),
        }
    }

    /// The target of `object`'s edge labelled `label`: the first whose label it is, or of [`ARRAY_ELEMENT`](crate::ARRAY_ELEMENT) the first
    /// element.
    #[inline]
    pub fn field(&self, object: u32, label: u32) -> Result<Option<u32>, Refusal> {
        let Columns { bases, short, codes, targets, fields, .. } = self.columns();
        let reply = ffi::yokefathom_lean_field(object as usize, label, bases, short, codes, targets, fields);
        found(reply, || Whole(self.columns()).field(object, label))
    }

    /// [`Graph::field`] of each object of a list, in its order, by one call. A refusal has the position in the list: INDEX where there is no such
    /// object.
    pub fn field_of_each(&self, objects: &[u32], label: u32) -> Result<Vec<Option<u32>>, Refusal> {
        let (mut targets, mut found) = (vec![0; objects.len()], vec![0; objects.len()]);
        self.fields_into(objects, label, &mut targets, &mut found)?;
        Ok(targets.into_iter().zip(found).map(|(target, found)| (found == 1).then_some(target)).collect())
    }

    /// The same into two columns of the caller's: from the front a target and the mark 1 for each object, or 0 and 0 where nothing was found, with
    /// zeros behind them: how many were asked. Where a column is shorter than the list, ROOM 12; after any refusal both columns are zero.
    pub fn fields_into(&self, objects: &[u32], label: u32, own_targets: &mut [u32], found: &mut [u8]) -> Result<usize, Refusal> {
        Whole(self.columns()).fields_into(objects, label, own_targets, found)
    }

    /// The referent of a reference object, weak or strong: the field, or else the smallest weak target.
    #[inline]
    pub fn referent(&self, object: u32, label: u32) -> Result<Option<u32>, Refusal> {
        let Columns { bases, short, codes, targets, fields, weak_from, weak_to, .. } = self.columns();
        let at = object as usize;
        let reply = ffi::yokefathom_lean_referent(at, label, bases, short, codes, targets, fields, weak_from, weak_to);
        found(reply, || Whole(self.columns()).referent(object, label))
    }

    /// The exact label of the first edge from one object to another.
    #[inline]
    pub fn label_of(&self, from: u32, to: u32) -> Result<Option<u32>, Refusal> {
        let Columns { bases, short, codes, targets, fields, .. } = self.columns();
        let reply = ffi::yokefathom_lean_label_of(from as usize, to, bases, short, codes, targets, fields);
        found(reply, || Whole(self.columns()).label_of(from, to))
    }

    /// The targets that `object` holds by references that the policy does not keep, rising.
    #[inline]
    pub fn weak_referents(&self, object: u32) -> Result<&[u32], Refusal> {
        let mut answer = [0; 4];
        ffi::yokefathom_weak_referents(object as usize, &self.short, &self.weak_from, &self.weak_to, &mut answer);
        values(&answer).map(|rows| &self.weak_to[rows[0] as usize..rows[1] as usize])
    }

    /// Whatever `object` refers to: the targets of its edges and weak pairs together, sorted, with repeats. They are the same under every
    /// policy.
    pub fn reached(&self, object: u32) -> Result<Vec<u32>, Refusal> {
        let mut targets = [self.edges(object)?.targets(), self.weak_referents(object)?].concat();
        targets.sort_unstable();
        Ok(targets)
    }

    /// Pairs of object and target left out of the graph proper, sorted.
    pub fn weak_edges(&self) -> impl ExactSizeIterator<Item = (u32, u32)> + '_ {
        self.weak_from.iter().copied().zip(self.weak_to.iter().copied())
    }

    /// Every edge's label, object by object.
    pub fn all_labels(&self) -> impl Iterator<Item = u32> + '_ {
        (0..self.object_count() as u32).flat_map(|object| self.edges(object).expect("an object").labels())
    }

    /// Where each object's edges start, then the total.
    pub fn offsets(&self) -> impl ExactSizeIterator<Item = u64> + '_ {
        (0..self.short.len() as u32).map(|object| self.span(object).map_or(self.edge_count(), |span| span.start as u64))
    }

    /// The same graph with an account of zeros, as [`Graph::from_parts`] gives it.
    pub fn without_account(&self) -> Graph {
        Graph { account: Account::default(), ..self.clone() }
    }

    /// The columns as a build left them, for comparison and storage.
    #[inline]
    pub fn columns(&self) -> Columns<'_> {
        Columns {
            targets: &self.targets,
            weak_from: &self.weak_from,
            weak_to: &self.weak_to,
            bases: &self.bases,
            short: &self.short,
            long_at: &self.long_at,
            long_value: &self.long_value,
            fields: &self.fields,
            table: &self.table,
            escape_at: &self.escape_at,
            escape_label: &self.escape_label,
            codes: &self.codes,
        }
    }
}

/// The used parts of a graph's columns, as document 01 lays them out.
#[derive(Clone, Copy, Debug, PartialEq, Eq)]
pub struct Columns<'a> {
    /// Every edge's target, object by object.
    pub targets: &'a [u32],
    /// The objects of the weak pairs.
    pub weak_from: &'a [u32],
    /// The targets of the weak pairs.
    pub weak_to: &'a [u32],
    /// Every 256th offset.
    pub bases: &'a [u64],
    /// Every offset above its base; 65,535 stands for one of the long list.
    pub short: &'a [u16],
    /// The places of the long offsets.
    pub long_at: &'a [u32],
    /// The long offsets, whole.
    pub long_value: &'a [u64],
    /// The label of each field code.
    pub fields: &'a [u32],
    /// The code of each name, then of the loader, then of any other label; 32,767 where there is none.
    pub table: &'a [u16],
    /// The edges whose labels have no code.
    pub escape_at: &'a [u64],
    /// Their labels, whole.
    pub escape_label: &'a [u32],
    /// Every edge's label in two bytes.
    pub codes: &'a [u16],
}

#[cfg(test)]
mod tests {
    use super::*;

    /// Columns that no build left: one object and one edge, whose label stands among the fields and is escaped all the same.
    #[test]
    fn a_label_that_could_have_a_code_is_found_escaped() {
        let graph = Graph {
            bases: vec![0],
            short: vec![0, 1],
            codes: vec![0x7FFF],
            targets: vec![0],
            fields: vec![5],
            table: vec![0; 8],
            escape_at: vec![0],
            escape_label: vec![5],
            ..Graph::default()
        };
        for (label, held) in [(5, Some(0)), (4, None)] {
            assert_eq!(graph.field(0, label), Ok(held));
            assert_eq!(graph.referent(0, label), Ok(held));
        }
        assert_eq!(all_at_once(&graph), (Ok(1), [0, 0], [5, 0]));
        let unread = Graph { escape_at: vec![1], ..graph };
        assert_eq!(unread.field(0, 5), Err(Refusal::Columns(0)));
        assert_eq!(unread.referent(0, 5), Err(Refusal::Columns(0)));
        assert_eq!(all_at_once(&unread), (Err(Refusal::Columns(0)), [0, 0], [0, 0]));
    }

    fn all_at_once(graph: &Graph) -> (Result<usize, Refusal>, [u32; 2], [u32; 2]) {
        let (mut targets, mut labels) = ([9; 2], [9; 2]);
        (graph.object_edges(0, &mut targets, &mut labels), targets, labels)
    }

    /// A target of columns that no build left: the edge is there, and leads to no object.
    #[test]
    fn a_target_that_is_no_object_is_refused() {
        let graph = |target| Graph {
            bases: vec![0],
            short: vec![0, 2],
            codes: vec![0, 0],
            targets: vec![0, target],
            fields: vec![5],
            ..Graph::default()
        };
        assert_eq!(all_at_once(&graph(0)), (Ok(2), [0, 0], [5, 5]));
        assert_eq!(all_at_once(&graph(1)), (Err(Refusal::Columns(0)), [0, 0], [0, 0]));
    }
}
