//! Pass two: the reference graph, by the library Yokefathom, in which every function is proved. Takes the place of midden's `src/graph.rs`. A
//! damaged dump is refused in the library's words: name, number and place. An object that does not exist has no edges. Nothing here panics.

use super::dump::{Dump, Kind, NONE, RefKind};
use super::hprof::{Body, IO_BUFFER_SIZE, Sink};
use super::index::References;
use super::source::Source;
use super::store::Column;
use crate::error::{Error, Result};
use std::{io, io::Write, ops::Range};
pub use yokefathom::{ARRAY_ELEMENT, LOADER};
use yokefathom::{Bodies, Input, References as Held, SlotRow, Tables};

/// Which referents count as strongly held.
#[derive(Clone, Copy, Debug, PartialEq, Eq, Default)]
pub struct ReferencePolicy {
    pub soft: bool,
    pub weak: bool,
}

impl ReferencePolicy {
    pub fn keeps(self, kind: RefKind) -> bool {
        if kind == RefKind::Soft { self.soft } else { self.weak }
    }
}

/// Targets and weak edges, as the cache stores them.
pub type Parts<'a> = (&'a [u32], &'a [(u32, u32)]);

/// The object graph: out-edges per object, and the GC roots.
pub struct Graph {
    /// The virtual root every GC root hangs off; equals the object count.
    pub root: u32,
    proved: yokefathom::Graph,
    /// Where each object's edges start, then the total: read back from the library once.
    offsets: Vec<u32>,
    /// Referent edges left out of the graph proper, sorted by source.
    weak: Vec<(u32, u32)>,
    /// References to ids the dump does not contain.
    pub dangling: u64,
    /// Distinct GC root objects, sorted.
    pub roots: Vec<u32>,
}

/// One object's out-edges, read in place.
#[derive(Clone, Copy)]
pub struct Edges<'a> {
    graph: &'a yokefathom::Graph,
    object: u32,
    targets: &'a [u32],
}

impl<'a> Edges<'a> {
    fn proved(&self) -> yokefathom::Edges<'a> {
        self.graph.edges(self.object).unwrap_or(yokefathom::Edges::none(self.graph))
    }

    pub fn len(&self) -> usize {
        self.targets.len()
    }

    pub fn targets(&self) -> impl Iterator<Item = u32> + use<'a> {
        self.targets.iter().copied()
    }

    pub fn labels(&self) -> impl Iterator<Item = u32> + use<'a> {
        self.proved().labels()
    }

    /// `(target, label)` pairs.
    pub fn iter(&self) -> impl Iterator<Item = (u32, u32)> + use<'a> {
        self.proved().iter()
    }

    /// Edge `k`'s field label, or just `ARRAY_ELEMENT` for an element; `NONE`, which is no label, past the last edge.
    pub fn coarse(&self, k: usize) -> u32 {
        self.proved().coarse(k).unwrap_or(NONE)
    }

    /// `(target, label)` pairs with every element's label just `ARRAY_ELEMENT`.
    pub fn iter_coarse(&self) -> impl Iterator<Item = (u32, u32)> + use<'a> {
        self.proved().iter_coarse()
    }

    pub fn label_of(&self, target: u32) -> Option<u32> {
        self.graph.label_of(self.object, target).unwrap_or_default()
    }
}

impl Graph {
    /// Where `object`'s edges sit in [`Graph::all_targets`].
    pub fn span(&self, object: u32) -> Range<usize> {
        self.offsets.get(object as usize..object as usize + 2).map_or(0..0, |at| at[0] as usize..at[1] as usize)
    }

    /// Every edge's target, object by object.
    pub fn all_targets(&self) -> &[u32] {
        self.proved.all_targets()
    }

    pub fn edges(&self, object: u32) -> Edges<'_> {
        let targets = self.proved.all_targets().get(self.span(object)).unwrap_or_default();
        Edges { graph: &self.proved, object, targets }
    }

    pub fn edge_count(&self) -> u64 {
        self.proved.edge_count()
    }

    pub fn weak_referents(&self, object: u32) -> impl Iterator<Item = u32> + '_ {
        self.proved.weak_referents(object).unwrap_or_default().iter().copied()
    }

    pub fn weak_edges(&self) -> &[(u32, u32)] {
        &self.weak
    }

    pub fn label_of(&self, from: u32, to: u32) -> Option<u32> {
        self.proved.label_of(from, to).unwrap_or_default()
    }

    /// The target of `object`'s edge labelled `label`.
    pub fn field(&self, object: u32, label: u32) -> Option<u32> {
        self.proved.field(object, label).unwrap_or_default()
    }

    /// The referent of a Reference object, weak or strong.
    pub fn referent(&self, object: u32, referent_label: u32) -> Option<u32> {
        self.proved.referent(object, referent_label).unwrap_or_default()
    }

    /// Reassemble a graph from cached parts. The signature has no error, so parts that are refused end the program, with the words
    /// that `main` would print: a graph without their edges would say that nobody holds them.
    #[rustfmt::skip]
    pub fn from_parts(
        offsets: Column<u64>, targets: Column<u32>, labels: Column<u32>, dump: &Dump, weak: Vec<(u32, u32)>, dangling: u64, roots: Vec<u32>,
    ) -> Graph {
        let (weak_from, weak_to): (Vec<u32>, Vec<u32>) = weak.into_iter().unzip();
        let (offsets, targets, labels, weak_from, weak_to, roots) = (&offsets, &targets, &labels, &weak_from, &weak_to, &roots);
        let parts = yokefathom::Parts { offsets, targets, labels, weak_from, weak_to, roots, dangling };
        Graph::try_from_parts(dump, &parts).unwrap_or_else(|refused| {
            eprintln!("{refused}");
            std::process::exit(1)
        })
    }

    /// The same for a cache that would rather be told: it can build the graph again.
    pub fn try_from_parts(dump: &Dump, parts: &yokefathom::Parts<'_>) -> Result<Graph> {
        Graph::of(yokefathom::Graph::from_parts(&classes(dump).schema(), parts))
    }

    /// What the library built, or its refusal as an error.
    fn of(built: std::result::Result<yokefathom::Graph, yokefathom::Refusal>) -> Result<Graph> {
        let mut proved = built.map_err(|refusal| Error::Dump(refusal.to_string()))?;
        let (offsets, weak) = (proved.offsets().map(|offset| offset as u32).collect(), proved.weak_edges().collect());
        let (root, roots) = (proved.object_count() as u32, std::mem::take(&mut proved.roots));
        Ok(Graph { root, offsets, weak, dangling: proved.dangling, roots, proved })
    }

    /// The parts the cache writes.
    pub fn parts(&self) -> Parts<'_> {
        (self.proved.all_targets(), &self.weak)
    }

    /// Every edge's label, object by object.
    pub fn all_labels(&self) -> impl Iterator<Item = u32> + '_ {
        (0..self.root).flat_map(|object| self.edges(object).labels())
    }

    /// Where each object's edges start, then the total, as the cache stores them.
    pub fn offsets(&self) -> impl ExactSizeIterator<Item = u64> + '_ {
        self.offsets.iter().map(|&offset| offset.into())
    }
}

/// Every reference in the dump as a graph over object indices: from the ids the index pass copied, or
/// read from the dump when it could not copy them.
pub fn build(dump: &Dump, source: &Source, reference_policy: ReferencePolicy, references: Option<References>) -> Result<Graph> {
    let Some(References { copied, starts }) = references else {
        let (mut bodies, filler) = (Bodies::default(), || Filler { dump, bodies: Bodies::default(), next: 0 });
        source.scan(&dump.chunks, "reading references", filler)?.into_iter().for_each(|part| bodies.append(part.bodies));
        let (bytes, starts, lengths) = &bodies.columns(dump.objects.len());
        return resolve(dump, reference_policy, Held::Raw { bytes, id_size: dump.header.id_size as usize, starts, lengths });
    };
    let (escape_places, escape_ids): (Vec<u64>, Vec<u64>) = copied.escapes.into_iter().unzip();
    let (codes, base, escape_places, escape_ids, starts) = (&copied.ids, copied.base, &escape_places, &escape_ids, &starts);
    resolve(dump, reference_policy, Held::Copied { codes, escape_places, escape_ids, base, starts })
}

/// The graph of what the objects hold.
fn resolve(dump: &Dump, policy: ReferencePolicy, references: Held<'_>) -> Result<Graph> {
    let mut tables = classes(dump);
    for at in 0..dump.objects.len() {
        // Only an object array's length says anything of references, and only its row is whole where the class is none of the dump's.
        let (kind, class) = (dump.objects.kind(at), dump.objects.class(at));
        tables.object(dump.objects.id(at), kind as u8, class, if kind == Kind::ObjectArray { dump.objects.get(at).len } else { 0 });
    }
    let roots: &[u32] = &dump.roots.iter().map(|&(object, _)| object).collect::<Vec<_>>();
    let policy = yokefathom::ReferencePolicy { soft: policy.soft, weak: policy.weak };
    Graph::of(yokefathom::Graph::build(&Input { objects: tables.objects(), schema: tables.schema(), references, roots, policy }))
}

/// The classes of a dump, and no object yet.
fn classes(dump: &Dump) -> Tables {
    let mut tables = Tables::new(dump.names.len());
    for class in &dump.classes {
        tables.class(class.id, class.loader, class.dumped, class.ref_kind.map_or(0, |kind| kind as u8 + 1));
        for slot in &class.slots {
            tables.slot(SlotRow { offset: slot.offset, label: slot.label, weak: slot.weak.into() });
        }
        for field in &class.statics {
            tables.static_field(field.name, field.ty.tag(), field.value.bits());
        }
    }
    tables
}

/// The bodies of a chunk's instances and object arrays.
struct Filler<'a> {
    dump: &'a Dump,
    bodies: Bodies,
    /// One past the last record's object: records come in address order, so the next one's is usually here, or one on.
    next: usize,
}

impl Filler<'_> {
    /// A record's body, if the table has the object so and it has references.
    fn keep(&mut self, id: u64, kind: Kind, body: Body) -> io::Result<()> {
        let objects = &self.dump.objects;
        let near = (self.next..objects.len().min(self.next + 2)).find(|&next| objects.id(next) == id);
        let Some(object) = near.map(|next| next as u32).or_else(|| self.dump.lookup(id)) else { return Ok(()) };
        self.next = object as usize + 1;
        let class = self.dump.classes.get(objects.class(object as usize) as usize);
        if objects.kind(object as usize) != kind || kind == Kind::Instance && class.is_some_and(|class| class.slots.is_empty()) {
            return Ok(());
        }
        self.bodies.begin(object, body.len());
        body.chunks(IO_BUFFER_SIZE, |part| self.bodies.write_all(part))
    }
}

impl Sink for Filler<'_> {
    fn instance(&mut self, id: u64, _class_id: u64, body: Body) -> io::Result<()> {
        self.keep(id, Kind::Instance, body)
    }

    fn object_array(&mut self, id: u64, _class_id: u64, _len: u32, body: Body) -> io::Result<()> {
        self.keep(id, Kind::ObjectArray, body)
    }
}
