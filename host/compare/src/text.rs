//! The text that `crates/replay` reads and writes: a case with the room that it is lent and its questions, and what has to come out. The answers
//! are the original's; refusals and the account, which it lacks, are those of the rules (`verdict.rs`).
use std::fmt::{Display, Write};

use midden::graph::Graph;
use yokefathom::{ARRAY_ELEMENT, LOADER, ReferencePolicy};

use crate::case::{Case, Route};
use crate::incoming::Plain;
use crate::oracle;
use crate::verdict;

/// Lengths of the 17 lent columns, in the order of a build's parameters.
pub type Rooms = [usize; 17];

const COLUMNS: [&str; 17] = [
    "targets", "labels", "weak_from", "weak_to", "roots", "working", "bases", "short", "long_at", "long_value", "fields", "table",
    "escape_at", "escape_label", "codes", "counting", "ranking",
];

/// The buffer of document 01 that each column belongs to.
const BUFFERS: [u64; 17] = [1, 1, 2, 2, 3, 4, 4, 4, 5, 5, 6, 6, 7, 7, 8, 9, 9];

/// Pairs of object and label, and of object and target.
#[derive(Clone, Debug, Default)]
pub struct Questions {
    pub field: Vec<(u32, u32)>,
    pub referent: Vec<(u32, u32)>,
    pub label_of: Vec<(u32, u32)>,
}

/// Under which policies a case is built: its own, or every one.
#[derive(Clone, Copy, Debug, PartialEq, Eq)]
pub enum Under {
    Own,
    Every,
}

/// Numbers in order, each behind a space; eight and more that rise by the same step are written as one.
fn numbers<T: Copy + Into<u64>>(column: &[T]) -> String {
    let column: Vec<u64> = column.iter().map(|&number| number.into()).collect();
    let (mut out, mut at) = (String::new(), 0);
    while at < column.len() {
        let rest = &column[at..];
        let step = rest.get(1).and_then(|next| next.checked_sub(rest[0]));
        let stretch = 1 + step.map_or(0, |step| rest.windows(2).take_while(|pair| pair[1].checked_sub(pair[0]) == Some(step)).count());
        match (stretch, step) {
            (8.., Some(0)) => out += &format!(" {stretch}*{}", rest[0]),
            (8.., Some(step)) => out += &format!(" {stretch}*{}+{step}", rest[0]),
            _ => out += &format!(" {}", rest[0]),
        }
        at += if stretch < 8 { 1 } else { stretch };
    }
    out
}

fn lengths(rooms: &Rooms) -> String {
    numbers(&rooms.map(|length| length as u64))
}

fn list<T: Copy + Into<u64>>(out: &mut String, name: &str, column: &[T]) {
    let _ = write!(out, "{name} [{}] ", numbers(column).trim_start());
}

fn pairs(out: &mut String, name: &str, asked: &[(u32, u32)]) {
    let column: Vec<u32> = asked.iter().flat_map(|&(object, of)| [object, of]).collect();
    list(out, name, &column);
}

/// A case as the program reads it.
pub fn input(title: &str, case: &Case, under: Under, route: Route, rooms: &[Rooms], asked: &Questions) -> String {
    let mut out = format!("\"{title}\"\n");
    let (base, size) = if route == Route::Copied { (case.base, 0) } else { (0, case.id_size as u64) };
    let (soft, weak) = if under == Under::Every { (2, 2) } else { (u64::from(case.soft), u64::from(case.weak)) };
    let head = [route as u64, soft, weak, case.names as u64, base, size];
    list(&mut out, "numbers", &head);
    out += "\n";
    list(&mut out, "ids", &case.ids);
    list(&mut out, "kinds", &case.kinds);
    list(&mut out, "classes", &case.classes);
    list(&mut out, "lengths", &case.lengths);
    out += "\n";
    list(&mut out, "class_ids", &case.class_ids);
    list(&mut out, "loaders", &case.loaders);
    list(&mut out, "dumped", &case.dumped);
    list(&mut out, "class_kinds", &case.class_kinds);
    out += "\n";
    list(&mut out, "slot_starts", &case.slot_starts);
    list(&mut out, "slot_ends", &case.slot_ends);
    list(&mut out, "static_starts", &case.static_starts);
    list(&mut out, "static_ends", &case.static_ends);
    out += "\n";
    list(&mut out, "slot_offsets", &case.slot_offsets);
    list(&mut out, "slot_labels", &case.slot_labels);
    list(&mut out, "slot_weak", &case.slot_weak);
    list(&mut out, "static_names", &case.static_names);
    list(&mut out, "static_types", &case.static_types);
    list(&mut out, "static_values", &case.static_values);
    out += "\n";
    match route {
        Route::Copied => {
            list(&mut out, "codes", &case.codes);
            list(&mut out, "escape_places", &case.escape_places);
            list(&mut out, "escape_ids", &case.escape_ids);
            list(&mut out, "starts", &case.starts);
        }
        Route::Raw => {
            list(&mut out, "bytes", &case.bytes);
            list(&mut out, "starts", &case.body_starts);
            list(&mut out, "bodies", &case.bodies);
        }
    }
    list(&mut out, "roots", &case.roots);
    out += "\n";
    let rooms: Vec<u64> = rooms.iter().flatten().map(|&length| length as u64).collect();
    list(&mut out, "rooms", &rooms);
    out += "\n";
    pairs(&mut out, "field", &asked.field);
    pairs(&mut out, "referent", &asked.referent);
    pairs(&mut out, "label_of", &asked.label_of);
    let lines: Vec<&str> = out.lines().map(str::trim_end).collect();
    lines.join("\n") + "\n"
}

/// What an accepted build of these numbers needs of each column.
pub fn needs(case: &Case, route: Route, graph: &Graph) -> Rooms {
    let (shown, places) = (graph.shown(), verdict::places(case, route) as usize);
    let (offsets, table, edges, weak) = (case.ids.len() + 1, case.names + 2, graph.all_targets().len(), graph.weak_edges().len());
    let (bases, long, fields, escapes) = (offsets.div_ceil(256), shown.long.len(), shown.fields.len(), shown.escapes.len());
    let roots = graph.roots.len();
    [places, places, weak, weak, roots, offsets, bases, offsets, long, long, fields, table, escapes, escapes, edges, table, table]
}

fn label(label: u32) -> String {
    match label {
        LOADER => "loader".into(),
        ARRAY_ELEMENT.. => format!("#{}", label - ARRAY_ELEMENT),
        _ => label.to_string(),
    }
}

/// Edges in order; two and more to one target with labels that rise by one are written as one.
fn edges(edges: &[(u32, u32)]) -> String {
    let (mut out, mut at) = (String::new(), 0);
    while at < edges.len() {
        let (target, first) = edges[at];
        let follows = |pair: &&[(u32, u32)]| pair[1].0 == target && pair[1].1 == pair[0].1.wrapping_add(1) && pair[1].1 != 0;
        let more = edges[at..].windows(2).take_while(follows).count();
        out += &format!(" {target}:{}", label(first));
        if more > 0 {
            out += &format!("..{}", label(edges[at + more].1));
        }
        at += more + 1;
    }
    out
}

fn line(out: &mut String, text: impl Display) {
    let _ = writeln!(out, "  {text}");
}

fn refused(out: &mut String, number: u64, place: u64) {
    line(out, format_args!("refused: {number} at {place}"));
    line(out, "left zero");
}

/// A column whole, as it is lent, with the zeros behind its used part.
fn column<T: Copy + Into<u64>>(out: &mut String, at: usize, used: impl IntoIterator<Item = T>, rooms: &Rooms) {
    let mut whole: Vec<u64> = used.into_iter().map(Into::into).collect();
    whole.resize(rooms[at], 0);
    line(out, format_args!("{}{}", COLUMNS[at], numbers(&whole)));
}

fn columns(out: &mut String, graph: &Graph, rooms: &Rooms) {
    let (shown, nothing) = (graph.shown(), || std::iter::empty::<u64>());
    column(out, 0, graph.all_targets().iter().copied(), rooms);
    column(out, 1, nothing(), rooms);
    column(out, 2, graph.weak_edges().iter().map(|pair| pair.0), rooms);
    column(out, 3, graph.weak_edges().iter().map(|pair| pair.1), rooms);
    column(out, 4, graph.roots.iter().copied(), rooms);
    column(out, 5, nothing(), rooms);
    column(out, 6, shown.bases.iter().copied(), rooms);
    column(out, 7, shown.short.iter().copied(), rooms);
    column(out, 8, shown.long.iter().map(|row| row.0), rooms);
    column(out, 9, shown.long.iter().map(|row| row.1), rooms);
    column(out, 10, shown.fields.iter().copied(), rooms);
    column(out, 11, shown.table.iter().copied(), rooms);
    column(out, 12, shown.escapes.iter().map(|row| row.0), rooms);
    column(out, 13, shown.escapes.iter().map(|row| row.1), rooms);
    column(out, 14, shown.codes.iter().copied(), rooms);
    column(out, 15, nothing(), rooms);
    column(out, 16, nothing(), rooms);
}

/// The original's answer, but for the name count asked as a label.
fn field(graph: &Graph, names: usize, object: u32, of: u32) -> Option<u32> {
    graph.field(object, of).filter(|_| of as usize != names)
}

/// The answers of the original, but for what it has no answer to: an object that does not exist, and the name count asked as a label.
fn questions(out: &mut String, graph: &Graph, names: usize, asked: &Questions) {
    let answer = |object: u32, found: &dyn Fn() -> Option<String>| match object < graph.root {
        true => found().unwrap_or("nothing".into()),
        false => format!("index {object}"),
    };
    let target = |found: Option<u32>| found.map(|target| target.to_string());
    for &(object, of) in &asked.field {
        let found = || target(field(graph, names, object, of));
        line(out, format_args!("field {object} {}: {}", label(of), answer(object, &found)));
    }
    for &(object, of) in &asked.referent {
        let found = || target(field(graph, names, object, of).or_else(|| graph.weak_referents(object).next()));
        line(out, format_args!("referent {object} {}: {}", label(of), answer(object, &found)));
    }
    for &(object, to) in &asked.label_of {
        let found = || graph.label_of(object, to).map(label);
        line(out, format_args!("label_of {object} {to}: {}", answer(object, &found)));
    }
}

/// A field of each object of a list, the objects of the first 64 field questions: of those that exist, and of all where one does not. Asked are the
/// labels of the first, the middle and the last question.
fn each(out: &mut String, graph: &Graph, names: usize, asked: &Questions) {
    let pairs = &asked.field[..asked.field.len().min(64)];
    let missing = pairs.iter().position(|&(object, _)| object >= graph.root);
    for at in [0, pairs.len() / 2, pairs.len().saturating_sub(1)] {
        let Some(&(_, of)) = pairs.get(at) else { return };
        let there = pairs.iter().filter(|pair| pair.0 < graph.root).map(|&(object, _)| field(graph, names, object, of));
        let answers: String = there.map(|found| found.map_or(" nothing".into(), |target| format!(" {target}"))).collect();
        let short = if answers.is_empty() { "" } else { " short room 12 room 12" };
        line(out, format_args!("each {}:{answers}{short}", label(of)));
        if let Some(position) = missing {
            line(out, format_args!("each {} of all: index {position} left zero", label(of)));
        }
    }
}

/// The names of the incoming columns, and the buffer that each one is of.
const INCOMING: [(&str, u64); 7] =
    [("sources", 10), ("places", 10), ("in_bases", 11), ("in_short", 11), ("in_long_at", 11), ("in_long_value", 11), ("working", 11)];

fn wide<T: Copy + Into<u64>>(column: &[T]) -> Vec<u64> {
    column.iter().map(|&number| number.into()).collect()
}

/// The incoming side of the graph: its columns in exact room, what is said where one of them is a number short, and who holds each object.
fn incoming(out: &mut String, graph: &Graph) {
    let plain = Plain::of_original(graph);
    let (entries, long, offsets) = (plain.sources.len(), plain.long_at.len(), plain.short.len());
    line(out, format_args!("incoming: entries {entries}, long {long}"));
    let columns = [
        wide(&plain.sources),
        wide(&plain.places),
        wide(&plain.bases),
        wide(&plain.short),
        wide(&plain.long_at),
        wide(&plain.long_value),
        vec![0; offsets],
    ];
    for ((name, _), column) in INCOMING.iter().zip(&columns) {
        line(out, format_args!("{name}{}", numbers(column)));
    }
    for ((name, buffer), _) in INCOMING.iter().zip(&columns).filter(|(_, column)| !column.is_empty()) {
        line(out, format_args!("{name} short refused: 9 at {buffer} left zero"));
    }
    let entry = |at: usize| format!("{} at {}", plain.sources[at], plain.places[at]);
    for object in 0..graph.root {
        let span = plain.span(object);
        match span.len() {
            0 => line(out, format_args!("held {object}: 0")),
            1 => line(out, format_args!("held {object}: 1 first {}", entry(span.start))),
            degree => line(out, format_args!("held {object}: {degree} first {} last {}", entry(span.start), entry(span.end - 1))),
        }
    }
    let none = format!("index {}", graph.root);
    line(out, format_args!("held {}: {none} first {none}", graph.root));
}

fn done(out: &mut String, case: &Case, under: Under, route: Route, graph: &Graph, rooms: &Rooms, asked: &Questions) {
    let (needs, dangling) = (needs(case, route, graph), graph.dangling);
    let [_, _, weak, _, roots, _, _, _, long, _, fields, _, escapes, _, edges_in_all, ..] = needs;
    line(
        out,
        format_args!(
            "done: edges {edges_in_all}, weak {weak}, roots {roots}, long {long}, fields {fields}, escapes {escapes}, dangling {dangling}"
        ),
    );
    if under == Under::Every {
        line(out, format_args!("references: edges {edges_in_all} + weak {weak} = {}, dangling {dangling}", edges_in_all + weak));
    }
    let rows = verdict::account(case, route).kinds().map(|(kind, row)| format!("{kind} {} {} {}", row.edges, row.weak, row.missing));
    line(out, format_args!("account: {}", rows.join(", ")));
    columns(out, graph, rooms);
    for object in 0..graph.root {
        let span = graph.span(object);
        let held: Vec<(u32, u32)> = graph.edges(object).iter().collect();
        let weak: Vec<u32> = graph.weak_referents(object).collect();
        // Of an object with edges each of its two columns is lent one number short, too.
        let short = if held.is_empty() { "" } else { " short room 23 room 23" };
        line(out, format_args!("object {object} span {} {} edges{}{short} weak{}", span.start, span.end, edges(&held), numbers(&weak)));
    }
    questions(out, graph, case.names, asked);
    each(out, graph, case.names, asked);
    incoming(out, graph);
}

/// The lowest buffer that is lent less than it needs.
fn short(rooms: &Rooms, needs: &Rooms) -> Option<u64> {
    (0..17).filter(|&at| rooms[at] < needs[at]).map(|at| BUFFERS[at]).min()
}

/// What has to come out.
pub fn output(title: &str, case: &Case, under: Under, route: Route, rooms: &[Rooms], asked: &Questions) -> String {
    let mut out = format!("{title}\n");
    match under {
        Under::Own => each_room(&mut out, case, under, route, rooms, asked),
        Under::Every => {
            for policy in ReferencePolicy::ALL {
                let [soft, weak] = [policy.soft, policy.weak].map(u64::from);
                line(&mut out, format_args!("policy: keep soft {soft}, keep weak {weak}"));
                each_room(&mut out, &case.clone().under(policy), under, route, rooms, asked);
            }
        }
    }
    out
}

/// The case under its policy, in each of its rooms.
fn each_room(out: &mut String, case: &Case, under: Under, route: Route, rooms: &[Rooms], asked: &Questions) {
    let refusal = verdict::refusal(case, route);
    let places = if refusal.is_none() { verdict::places(case, route) as usize } else { 0 };
    for set in rooms {
        if rooms.len() > 1 {
            line(out, format_args!("rooms{}", lengths(set)));
        }
        // Places at the limit are not built: they would take gigabytes.
        match refusal.or((set[0].min(set[1]) < places).then_some((9, 1))) {
            Some((number, place)) => refused(out, number, place),
            None => {
                let graph = oracle::build(case, route);
                match short(set, &needs(case, route, &graph)) {
                    Some(buffer) => refused(out, 9, buffer),
                    None => done(out, case, under, route, &graph, set, asked),
                }
            }
        }
    }
}
