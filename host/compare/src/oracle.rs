//! A case as the original takes it: its `Dump`, its copied references or a dump file in memory, and its graph. `super::midden` is the original.
use std::path::{Path, PathBuf};
use std::sync::Arc;

use super::midden::dump::{Class, Dump, FastMap, Kind, NONE, ObjectTable, Packing, RefKind, Shapes, Slot, Static, Symbols};
use super::midden::error::Result;
use super::midden::graph::{self, Graph, ReferencePolicy};
use super::midden::hprof::{self, Header, Reader, Root, RootKind, Ty, Value, View};
use super::midden::index::{Copied, Indexer, References};
use super::midden::sizes::{SizeMode, Sizing};
use super::midden::source::{Progress, Source};
use super::midden::store::Column;

use crate::case::{Case, Route};

fn classes(case: &Case) -> Vec<Class> {
    let mut instances = vec![0; case.class_ids.len()];
    for (&class, _) in case.classes.iter().zip(&case.kinds).filter(|&(_, &kind)| kind == 0) {
        instances.get_mut(class as usize).into_iter().for_each(|count| *count += 1);
    }
    let class = |at: usize| Class {
        name: format!("p{}.C{at}", at % 3),
        shallow: 16 + 8 * case.slots_of(at).len() as u32,
        instances: instances[at],
        id: case.class_ids[at],
        loader: case.loaders[at],
        dumped: case.dumped[at] == 1,
        superclass: NONE,
        slots: case
            .slots_of(at)
            .map(|k| Slot { offset: case.slot_offsets[k], label: case.slot_labels[k], weak: case.slot_weak[k] == 1 })
            .collect(),
        statics: case
            .statics_of(at)
            .map(|k| {
                let ty = Ty::from_tag(case.static_types[k]).expect("a type");
                Static { name: case.static_names[k], ty, value: Value::from_bits(ty, case.static_values[k]) }
            })
            .collect(),
        ref_kind: (case.class_kinds[at] > 0).then(|| RefKind::ALL[case.class_kinds[at] as usize - 1]),
        ..Class::default()
    };
    // One more behind them, as the original always has one for arrays and classes.
    (0..case.class_ids.len()).map(class).chain([Class::placeholder(String::new(), 0)]).collect()
}

/// A dump with the case's classes and names, and no object: all that `from_parts` reads.
fn schema_dump(case: &Case) -> Dump {
    let none = Case { ids: Vec::new(), roots: Vec::new(), ..case.clone() };
    dump(&none, Vec::new())
}

pub fn dump(case: &Case, chunks: Vec<(u64, u64)>) -> Dump {
    let classes = classes(case);
    let class_class = classes.len() as u32 - 1;
    let packing = Packing::new(classes.len());
    let (mut words, mut long) = (Column::with_capacity(case.ids.len()), Vec::new());
    for object in 0..case.ids.len() {
        let (class, length) = match case.kinds[object] {
            0 => (case.classes[object], 0),
            3 => (class_class, 0),
            _ => (class_class, case.lengths[object]),
        };
        let (word, rest) = packing.pack(class, Kind::ALL[case.kinds[object] as usize], length);
        words.push(word);
        long.extend(rest.map(|length| (object as u32, length)));
    }
    // The copied route does not read the id size, and any is sound there; the original wants one.
    let id_size = if case.id_size == 4 { 4 } else { 8 };
    let sizing = Sizing::resolve(SizeMode::Mat, id_size, 0);
    let objects = ObjectTable::from_columns(&classes, sizing, &case.ids, Shapes::new(words, packing, long));
    let root = |&object: &u32| {
        let id = case.ids.get(object as usize).copied().unwrap_or(0);
        (object, Root { id, kind: RootKind::Unknown, thread_serial: 0, frame: u32::MAX, trace_serial: 0 })
    };
    Dump {
        path: String::new(),
        file_size: 0,
        gzip: false,
        member: None,
        header: Header { format: "JAVA PROFILE 1.0.2".into(), id_size, timestamp_ms: 0 },
        truncated: false,
        sizing,
        chunks,
        pieces: Vec::new(),
        names: (0..case.names).map(|at| ["referent", "next", "value"].get(at).map_or(String::new(), |name| name.to_string())).collect(),
        symbols: Symbols::default(),
        roots: case.roots.iter().map(root).collect(),
        classes,
        objects,
        array_hashes: None,
        boxed_values: None,
        dangling_roots: 0,
        marked_unreachable: 0,
        threads: Vec::new(),
        traces: Default::default(),
        frames: FastMap::default(),
        class_by_serial: Default::default(),
        class_class,
        string_class: NONE,
        value_label: 0,
        name_label: 0,
    }
}

/// A dump file whose heap records carry the bodies, and where its chunks lie.
fn file(case: &Case) -> (Vec<u8>, Vec<(u64, u64)>) {
    let id = |out: &mut Vec<u8>, id: u64| out.extend(&id.to_be_bytes()[8 - case.id_size..]);
    let mut out = b"JAVA PROFILE 1.0.2\0".to_vec();
    out.extend((case.id_size as u32).to_be_bytes());
    out.extend([0; 8]);
    let mut chunks = Vec::new();
    let step = case.ids.len().div_ceil(case.chunks.max(1)).max(1);
    for first in (0..case.ids.len().max(1)).step_by(step) {
        out.extend([0x1C, 0, 0, 0, 0, 0, 0, 0, 0]);
        let start = out.len();
        for object in first..(first + step).min(case.ids.len()) {
            let kind = case.kinds[object];
            if kind > 2 {
                continue;
            }
            out.push([0x21, 0x22, 0xC3][kind as usize]);
            id(&mut out, case.ids[object]);
            out.extend([0; 4]);
            let body = case.body_starts[object] as usize..case.body_starts[object] as usize + case.bodies[object] as usize;
            match kind {
                0 => {
                    id(&mut out, 0);
                    out.extend(case.bodies[object].to_be_bytes());
                    out.extend(&case.bytes[body]);
                }
                1 => {
                    out.extend(case.lengths[object].to_be_bytes());
                    id(&mut out, 0);
                    out.extend(&case.bytes[body]);
                }
                // A primitive array without its data.
                _ => {
                    out.extend(case.lengths[object].to_be_bytes());
                    out.push(8);
                }
            }
        }
        let length = u32::try_from(out.len() - start).unwrap_or(u32::MAX);
        out[start - 4..start].copy_from_slice(&length.to_be_bytes());
        chunks.push((start as u64, out.len() as u64));
    }
    (out, chunks)
}

pub fn source(seekable: Option<View>, id_size: u32) -> Source {
    Source { dump: PathBuf::new(), seekable, id_size, progress: Arc::new(Progress::new(false)) }
}

/// A case made ready for the original, so that a build alone can be timed.
pub struct Ready {
    pub dump: Dump,
    source: Source,
    copied: bool,
    policy: ReferencePolicy,
}

pub fn ready(case: &Case, route: Route) -> Ready {
    let policy = ReferencePolicy { soft: case.soft, weak: case.weak };
    let size = case.id_size as u32;
    match route {
        Route::Copied => Ready { dump: dump(case, Vec::new()), source: source(None, size), copied: true, policy },
        Route::Raw => {
            let (bytes, chunks) = file(case);
            let source = source(Some(View::memory(Arc::new(bytes))), size);
            Ready { dump: dump(case, chunks), source, copied: false, policy }
        }
    }
}

pub fn references(case: &Case) -> References {
    let escapes = case.escape_places.iter().copied().zip(case.escape_ids.iter().copied()).collect();
    let copied = Copied { ids: case.codes.iter().copied().collect(), escapes, base: case.base };
    References { copied, starts: case.starts.iter().copied().collect() }
}

impl Ready {
    pub fn build(&self, references: Option<References>) -> Result<Graph> {
        assert_eq!(self.copied, references.is_some());
        graph::build(&self.dump, &self.source, self.policy, references)
    }
}

pub fn build(case: &Case, route: Route) -> Graph {
    midden::parallel::set_threads(case.threads.max(1));
    ready(case, route).build((route == Route::Copied).then(|| references(case))).expect("a graph")
}

/// The original's graph of plain columns.
pub fn from_parts(case: &Case, parts: &yokefathom::Parts<'_>) -> Graph {
    midden::parallel::set_threads(case.threads.max(1));
    Graph::from_parts(
        parts.offsets.iter().copied().collect(),
        parts.targets.iter().copied().collect(),
        parts.labels.iter().copied().collect(),
        &schema_dump(case),
        parts.weak_from.iter().copied().zip(parts.weak_to.iter().copied()).collect(),
        parts.dangling,
        parts.roots.to_vec(),
    )
}

/// A dump file through the original's own index pass: the dump, the ids that it copied, and the file.
pub fn index(path: &str) -> std::result::Result<(Dump, Option<References>, Source), Box<dyn std::error::Error>> {
    let view = View::file(Path::new(path))?;
    let (mut reader, header) = Reader::open_view(&view)?;
    let id_size = header.id_size;
    let mut indexer = Indexer::new(id_size);
    let walked = hprof::walk(&mut reader, &mut indexer, false)?;
    let (dump, references) = indexer.finish(path, &reader, header, walked, SizeMode::Mat)?;
    Ok((dump, references, source(Some(view), id_size)))
}
