//! The reference graph of a Java heap dump: which object holds which, by which field or array element.
//!
//! [`Graph`] has the methods of the original's `Graph` (midden), over columns that a static library fills and reads. Every function of
//! that library is proved against its contract, so what is answered here is what document 01 of the project says, for every input: a
//! damaged input is refused with a [`Refusal`], and never read past its end. This crate lends the memory, cuts it to length and turns
//! numbers into types; it is the part that is not proved, and it is short.
//!
//! ```no_run
//! # use yokefathom::*;
//! # fn build(input: Input<'_>) -> Result<(), Refusal> {
//! let graph = Graph::build(&input)?;
//! for (target, label) in graph.edges(0)?.iter() {
//!     println!("object 0 holds {target} by {label:#x}");
//! }
//! println!("{} edges, {} ids that no object has", graph.edge_count(), graph.dangling);
//! println!("{}", graph.account);
//! # Ok(())
//! # }
//! ```
//!
//! [`Graph::incoming`] answers "who holds this?": [`Incoming::of`] an object are those that refer to it, each with the exact label of its edge,
//! and an [`in_degree`](Incoming::in_degree) of 0 says that nobody does.
//!
//! ```no_run
//! # use yokefathom::*;
//! # fn ask(graph: &Graph, object: u32) -> Result<(), Refusal> {
//! let incoming = graph.incoming()?;
//! for referrer in incoming.of(object)? {
//!     println!("object {object} is held as {referrer}");
//! }
//! # Ok(())
//! # }
//! ```
#![warn(missing_docs)]

mod account;
mod answer;
mod edges;
mod ffi;
mod graph;
mod incoming;
mod input;
mod refusal;
mod room;
mod tables;
mod whole;

pub use account::{Account, Outcomes};
pub use edges::{Edges, Pairs};
pub use graph::{Columns, Graph};
pub use incoming::{Incoming, IncomingColumns, Referrer, Referrers};
pub use input::{Classes, Input, Objects, Parts, ReferencePolicy, References, Schema, SlotColumns, SlotRow, Slots, Statics};
pub use refusal::Refusal;
pub use tables::{Bodies, Tables};

/// What the comparison with the original tries beyond a host's needs: calls that write into columns of its own, and whole questions.
#[cfg(feature = "compare")]
pub mod compare {
    pub use crate::room::{CodedRoom, IncomingRoom, Room};
    pub use crate::whole::Whole;
}

/// Label flag: the edge is an array element, the low bits are its index.
pub const ARRAY_ELEMENT: u32 = 1 << 31;
/// Label of the edge from a class object to its class loader.
pub const LOADER: u32 = ARRAY_ELEMENT - 1;
