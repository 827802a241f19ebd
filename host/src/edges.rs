//! One object's edges, one by one and in order.
use std::ops::Range;

use crate::ARRAY_ELEMENT;
use crate::answer::value;
use crate::ffi;
use crate::graph::{Columns, Graph};
use crate::refusal::Refusal;

/// One object's out-edges, read in place.
#[derive(Clone, Copy, Debug)]
pub struct Edges<'a> {
    graph: &'a Graph,
    object: u32,
    start: usize,
    targets: &'a [u32],
}

impl<'a> Edges<'a> {
    /// The edges of an object whose span is known.
    #[inline]
    pub(crate) fn new(graph: &'a Graph, object: u32, span: Range<usize>) -> Edges<'a> {
        Edges { graph, object, start: span.start, targets: &graph.all_targets()[span] }
    }

    /// No edges: for a host that gives an object which does not exist none, and no refusal.
    #[inline]
    pub fn none(graph: &'a Graph) -> Edges<'a> {
        Edges { graph, object: u32::MAX, start: 0, targets: &[] }
    }

    /// How many edges the object has.
    #[inline]
    pub fn len(&self) -> usize {
        self.targets.len()
    }

    /// Whether it has none.
    #[inline]
    pub fn is_empty(&self) -> bool {
        self.targets.is_empty()
    }

    /// The place of the first edge in [`Graph::all_targets`].
    #[inline]
    pub(crate) fn start(&self) -> usize {
        self.start
    }

    /// Every edge's target, in order: a part of [`Graph::all_targets`].
    #[inline]
    pub fn targets(&self) -> &'a [u32] {
        self.targets
    }

    /// Edge `k`'s field label, or just [`ARRAY_ELEMENT`] for an element.
    #[inline]
    pub fn coarse(&self, k: usize) -> Result<u32, Refusal> {
        let Columns { bases, short, long_at, long_value, codes, targets, fields, escape_at, escape_label, .. } = self.graph.columns();
        let (object, mut answer) = (self.object as usize, [0; 4]);
        #[rustfmt::skip]
        ffi::yokefathom_coarse_label(
            object, k, bases, short, long_at, long_value, codes, targets, fields, escape_at, escape_label, &mut answer,
        );
        value(&answer).map(|label| label as u32)
    }

    /// Edge `k`'s label. An element's index adds up the gaps back to the nearest one whose index is kept whole, or to the first edge.
    #[inline]
    pub fn exact(&self, k: usize) -> Result<u32, Refusal> {
        let Columns { bases, short, long_at, long_value, codes, targets, fields, escape_at, escape_label, .. } = self.graph.columns();
        let (object, mut answer) = (self.object as usize, [0; 4]);
        #[rustfmt::skip]
        ffi::yokefathom_exact_label(
            object, k, bases, short, long_at, long_value, codes, targets, fields, escape_at, escape_label, &mut answer,
        );
        value(&answer).map(|label| label as u32)
    }

    /// The exact label of the first edge to a target.
    #[inline]
    pub fn label_of(&self, target: u32) -> Result<Option<u32>, Refusal> {
        self.graph.label_of(self.object, target)
    }

    /// Every edge's label, in order.
    #[inline]
    pub fn labels(&self) -> impl Iterator<Item = u32> + use<'a> {
        self.iter().map(|(_, label)| label)
    }

    /// `(target, label)` pairs, in order: one call reads them all.
    #[inline]
    pub fn iter(&self) -> Pairs<'a> {
        Pairs::of(*self)
    }

    /// `(target, label)` pairs with every element's label just [`ARRAY_ELEMENT`]: all other labels are below it.
    #[inline]
    pub fn iter_coarse(&self) -> impl Iterator<Item = (u32, u32)> + use<'a> {
        self.iter().map(|(target, label)| (target, label.min(ARRAY_ELEMENT)))
    }
}

/// So many edges of an object are kept in the iterator itself; for more, memory is asked for. Most objects have fewer.
const FEW: usize = 16;

/// The edges of an object, target and exact label, in order.
///
/// The first call of `next` reads them all. Not sooner: numbers that were just written are slow to move, and an iterator is moved where it is made.
#[derive(Clone, Debug)]
pub struct Pairs<'a> {
    edges: Edges<'a>,
    next: usize,
    few: [[u32; FEW]; 2],
    many: Vec<u32>,
}

impl<'a> Pairs<'a> {
    #[inline]
    fn of(edges: Edges<'a>) -> Pairs<'a> {
        Pairs { edges, next: 0, few: [[0; FEW]; 2], many: Vec::new() }
    }

    /// Reads all edges of the object, if that is still to be done.
    #[inline]
    fn read(&mut self) {
        let count = self.edges.len();
        if self.next > 0 || count == 0 {
            return;
        }
        let (targets, labels) = if count > FEW {
            self.many = vec![0; 2 * count];
            self.many.split_at_mut(count)
        } else {
            let [targets, labels] = &mut self.few;
            (&mut targets[..count], &mut labels[..count])
        };
        self.edges.graph.object_edges(self.edges.object, targets, labels).expect("an object of a built graph, and room for its edges");
    }

    /// Targets and labels, where they have been read.
    #[inline]
    fn own(&self) -> (&[u32], &[u32]) {
        let count = self.edges.len();
        match count > FEW {
            true => self.many.split_at(count),
            false => (&self.few[0][..count], &self.few[1][..count]),
        }
    }
}

impl Iterator for Pairs<'_> {
    type Item = (u32, u32);

    #[inline]
    fn next(&mut self) -> Option<(u32, u32)> {
        let k = self.next;
        if self.edges.len() <= k {
            return None;
        }
        self.read();
        self.next += 1;
        let (targets, labels) = self.own();
        Some((targets[k], labels[k]))
    }

    /// All at once, for `sum`, `for_each` and their like.
    #[inline]
    fn fold<B, F: FnMut(B, (u32, u32)) -> B>(mut self, first: B, with: F) -> B {
        self.read();
        let (targets, labels) = self.own();
        targets.iter().copied().zip(labels.iter().copied()).skip(self.next).fold(first, with)
    }

    #[inline]
    fn size_hint(&self) -> (usize, Option<usize>) {
        let left = self.edges.len() - self.next;
        (left, Some(left))
    }
}

impl ExactSizeIterator for Pairs<'_> {}
