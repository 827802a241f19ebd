//! One input in columns of its own, by both routes at once.
use yokefathom::{Classes, Input, Objects, ReferencePolicy, References, Schema, Slots, Statics};

#[derive(Clone, Copy, Debug, PartialEq, Eq)]
pub enum Route {
    Copied,
    Raw,
}

pub const ROUTES: [Route; 2] = [Route::Copied, Route::Raw];

#[derive(Clone, Debug, Default)]
pub struct Case {
    pub ids: Vec<u64>,
    pub kinds: Vec<u8>,
    pub classes: Vec<u32>,
    pub lengths: Vec<u32>,
    pub class_ids: Vec<u64>,
    pub loaders: Vec<u64>,
    pub dumped: Vec<u8>,
    pub class_kinds: Vec<u8>,
    pub slot_starts: Vec<u32>,
    pub slot_ends: Vec<u32>,
    pub static_starts: Vec<u32>,
    pub static_ends: Vec<u32>,
    pub slot_offsets: Vec<u32>,
    pub slot_labels: Vec<u32>,
    pub slot_weak: Vec<u8>,
    pub static_names: Vec<u32>,
    pub static_types: Vec<u8>,
    pub static_values: Vec<u64>,
    pub names: usize,
    pub roots: Vec<u32>,
    pub soft: bool,
    pub weak: bool,
    pub codes: Vec<u32>,
    pub escape_places: Vec<u64>,
    pub escape_ids: Vec<u64>,
    pub base: u64,
    pub starts: Vec<u32>,
    pub bytes: Vec<u8>,
    pub id_size: usize,
    pub body_starts: Vec<u64>,
    pub bodies: Vec<u32>,
    /// Threads of the original, and into how many chunks its file is cut.
    pub threads: usize,
    pub chunks: usize,
}

impl Case {
    pub fn schema(&self) -> Schema<'_> {
        Schema {
            classes: Classes {
                ids: &self.class_ids,
                loaders: &self.loaders,
                dumped: &self.dumped,
                kinds: &self.class_kinds,
                slot_starts: &self.slot_starts,
                slot_ends: &self.slot_ends,
                static_starts: &self.static_starts,
                static_ends: &self.static_ends,
            },
            slots: Slots { offsets: &self.slot_offsets, labels: &self.slot_labels, weak: &self.slot_weak },
            statics: Statics { names: &self.static_names, types: &self.static_types, values: &self.static_values },
            names: self.names,
        }
    }

    pub fn input(&self, route: Route) -> Input<'_> {
        let references = match route {
            Route::Copied => References::Copied {
                codes: &self.codes,
                escape_places: &self.escape_places,
                escape_ids: &self.escape_ids,
                base: self.base,
                starts: &self.starts,
            },
            Route::Raw => References::Raw { bytes: &self.bytes, id_size: self.id_size, starts: &self.body_starts, lengths: &self.bodies },
        };
        Input {
            objects: Objects { ids: &self.ids, kinds: &self.kinds, classes: &self.classes, lengths: &self.lengths },
            schema: self.schema(),
            references,
            roots: &self.roots,
            policy: self.policy(),
        }
    }

    pub fn under(mut self, policy: ReferencePolicy) -> Case {
        (self.soft, self.weak) = (policy.soft, policy.weak);
        self
    }

    pub fn policy(&self) -> ReferencePolicy {
        ReferencePolicy { soft: self.soft, weak: self.weak }
    }

    pub fn slots_of(&self, class: usize) -> std::ops::Range<usize> {
        self.slot_starts[class] as usize..self.slot_ends[class] as usize
    }

    pub fn statics_of(&self, class: usize) -> std::ops::Range<usize> {
        self.static_starts[class] as usize..self.static_ends[class] as usize
    }

    /// Adds a class with its slots (offset, label, weak) and statics (name, type, value).
    pub fn class(&mut self, id: u64, loader: u64, dumped: bool, kind: u8, slots: &[(u32, u32, bool)], statics: &[(u32, u8, u64)]) {
        self.class_ids.push(id);
        self.loaders.push(loader);
        self.dumped.push(u8::from(dumped));
        self.class_kinds.push(kind);
        self.slot_starts.push(self.slot_labels.len() as u32);
        self.static_starts.push(self.static_names.len() as u32);
        for &(offset, label, weak) in slots {
            self.slot_offsets.push(offset);
            self.slot_labels.push(label);
            self.slot_weak.push(u8::from(weak));
        }
        for &(name, kind, value) in statics {
            self.static_names.push(name);
            self.static_types.push(kind);
            self.static_values.push(value);
        }
        self.slot_ends.push(self.slot_labels.len() as u32);
        self.static_ends.push(self.static_names.len() as u32);
    }

    /// Adds an object with the body that holds its ids; of an array, the length follows.
    pub fn object(&mut self, id: u64, kind: u8, class: u32, body: &[u8]) {
        self.ids.push(id);
        self.kinds.push(kind);
        self.classes.push(class);
        self.lengths.push(if kind == 1 { (body.len() / self.id_size) as u32 } else { 0 });
        self.body_starts.push(self.bytes.len() as u64);
        self.bodies.push(body.len() as u32);
        self.bytes.extend(body);
    }

    fn id_in(&self, object: usize, offset: usize) -> u64 {
        let (start, length) = (self.body_starts[object] as usize, self.bodies[object] as usize);
        let body = &self.bytes[start..start + length];
        body.get(offset..offset + self.id_size).map_or(0, |id| id.iter().fold(0, |sum, &byte| sum << 8 | u64::from(byte)))
    }

    /// Copies the ids out of the bodies, with the original's own coder.
    pub fn copy_ids(&mut self, base: u64) {
        let mut ids = Vec::new();
        self.starts.clear();
        for object in 0..self.ids.len() {
            self.starts.push(ids.len() as u32);
            match self.kinds[object] {
                0 => {
                    for slot in self.slots_of(self.classes[object] as usize) {
                        ids.push(self.id_in(object, self.slot_offsets[slot] as usize));
                    }
                }
                1 => ids.extend((0..self.lengths[object] as usize).map(|k| self.id_in(object, k * self.id_size))),
                _ => {}
            }
        }
        self.base = base;
        let mut copied = midden::index::Copied { ids: Vec::<u32>::new(), escapes: Vec::new(), base };
        copied.extend(ids);
        self.codes = copied.ids;
        (self.escape_places, self.escape_ids) = copied.escapes.into_iter().unzip();
    }
}
