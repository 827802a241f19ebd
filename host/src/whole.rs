//! The questions by all columns at once, which [`Graph`](crate::Graph) asks where the short columns do not suffice.
use std::ops::Range;

use crate::answer::{value, value_or_none, values};
use crate::ffi;
use crate::graph::Columns;
use crate::refusal::Refusal;

/// Columns of which every question is asked whole, whatever the short ones say.
#[derive(Clone, Copy, Debug)]
pub struct Whole<'a>(pub Columns<'a>);

impl Whole<'_> {
    /// [`Graph::span`](crate::Graph::span).
    #[cold]
    pub fn span(self, object: u32) -> Result<Range<usize>, Refusal> {
        let Columns { bases, short, long_at, long_value, codes, targets, .. } = self.0;
        let mut answer = [0; 4];
        ffi::yokefathom_span(object as usize, bases, short, long_at, long_value, codes, targets, &mut answer);
        values(&answer).map(|at| at[0] as usize..at[1] as usize)
    }

    /// [`Graph::degree`](crate::Graph::degree).
    #[cold]
    pub fn degree(self, object: u32) -> Result<usize, Refusal> {
        let Columns { bases, short, long_at, long_value, codes, targets, .. } = self.0;
        let mut answer = [0; 4];
        ffi::yokefathom_edge_count(object as usize, bases, short, long_at, long_value, codes, targets, &mut answer);
        value(&answer).map(|count| count as usize)
    }

    /// [`Graph::field`](crate::Graph::field).
    #[cold]
    pub fn field(self, object: u32, label: u32) -> Result<Option<u32>, Refusal> {
        let Columns { bases, short, long_at, long_value, codes, targets, fields, escape_at, escape_label, .. } = self.0;
        let (object, mut answer) = (object as usize, [0; 4]);
        #[rustfmt::skip]
        ffi::yokefathom_field(
            object, label, bases, short, long_at, long_value, codes, targets, fields, escape_at, escape_label, &mut answer,
        );
        value_or_none(&answer)
    }

    /// [`Graph::referent`](crate::Graph::referent).
    #[cold]
    pub fn referent(self, object: u32, label: u32) -> Result<Option<u32>, Refusal> {
        let Columns { bases, short, long_at, long_value, codes, targets, fields, escape_at, escape_label, .. } = self.0;
        let Columns { weak_from, weak_to, .. } = self.0;
        let (object, mut answer) = (object as usize, [0; 4]);
        #[rustfmt::skip]
        ffi::yokefathom_referent(
            object, label, bases, short, long_at, long_value, codes, targets, fields, escape_at, escape_label,
            weak_from, weak_to, &mut answer,
        );
        value_or_none(&answer)
    }

    /// [`Graph::label_of`](crate::Graph::label_of).
    #[cold]
    pub fn label_of(self, from: u32, to: u32) -> Result<Option<u32>, Refusal> {
        let Columns { bases, short, long_at, long_value, codes, targets, fields, escape_at, escape_label, .. } = self.0;
        let (object, mut answer) = (from as usize, [0; 4]);
        #[rustfmt::skip]
        ffi::yokefathom_label_of(
            object, to, bases, short, long_at, long_value, codes, targets, fields, escape_at, escape_label, &mut answer,
        );
        value_or_none(&answer)
    }

    /// [`Graph::object_edges`](crate::Graph::object_edges).
    #[cold]
    pub fn object_edges(self, object: u32, own_targets: &mut [u32], own_labels: &mut [u32]) -> Result<usize, Refusal> {
        let Columns { bases, short, long_at, long_value, codes, targets, fields, escape_at, escape_label, .. } = self.0;
        let (object, mut answer) = (object as usize, [0; 4]);
        #[rustfmt::skip]
        ffi::yokefathom_object_edges(
            object, bases, short, long_at, long_value, codes, targets, fields, escape_at, escape_label, own_targets, own_labels, &mut answer,
        );
        value(&answer).map(|count| count as usize)
    }

    /// [`Graph::fields_into`](crate::Graph::fields_into).
    pub fn fields_into(self, objects: &[u32], label: u32, own_targets: &mut [u32], found: &mut [u8]) -> Result<usize, Refusal> {
        let Columns { bases, short, long_at, long_value, codes, targets, fields, escape_at, escape_label, .. } = self.0;
        let mut answer = [0; 4];
        #[rustfmt::skip]
        ffi::yokefathom_field_of_each(
            objects, label, bases, short, long_at, long_value, codes, targets, fields, escape_at, escape_label, own_targets, found, &mut answer,
        );
        value(&answer).map(|count| count as usize)
    }
}
