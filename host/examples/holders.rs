//! Who holds an object of the worked dump of document 01: `cargo run --example holders` for every object, `-- 0` for one.
#[path = "../tests/common/mod.rs"]
mod common;

use std::process::ExitCode;

use common::{COPIED, OBJECTS, worked};
use yokefathom::{Graph, Incoming, Refusal};

/// An object with its id and what it is.
fn told(object: u32) -> String {
    let at = object as usize;
    let what = match OBJECTS.kinds[at] {
        0 => format!("an instance of class {}", OBJECTS.classes[at]),
        1 => format!("an array of {} references", OBJECTS.lengths[at]),
        2 => format!("a primitive array of {}", OBJECTS.lengths[at]),
        _ => "a class".to_string(),
    };
    format!("id {}, {what}", OBJECTS.ids[at])
}

/// Every one that holds an object, then those that hold it weakly.
fn show(incoming: &Incoming<'_>, object: u32) -> Result<(), Refusal> {
    let graph = incoming.graph();
    let degree = incoming.in_degree(object)?;
    let root = if graph.roots.contains(&object) { ", a root" } else { "" };
    println!("object {object} ({}{root})", told(object));
    for referrer in incoming.of(object)? {
        println!("  held as {referrer} ({})", told(referrer.object));
    }
    if degree == 0 {
        println!("  nobody holds it");
    }
    for (from, _) in graph.weak_edges().filter(|&(_, to)| to == object) {
        println!("  weakly: by object {from} ({})", told(from));
    }
    Ok(())
}

/// The objects asked for: the one named, or all.
fn asked(graph: &Graph) -> Result<Vec<u32>, std::num::ParseIntError> {
    match std::env::args().nth(1) {
        Some(word) => Ok(vec![word.parse()?]),
        None => Ok((0..graph.object_count() as u32).collect()),
    }
}

fn main() -> ExitCode {
    let graph = Graph::build(&worked(COPIED)).expect("the worked dump is sound");
    let incoming = graph.incoming().expect("a built graph reads back");
    let Ok(objects) = asked(&graph) else {
        eprintln!("usage: holders [OBJECT]");
        return ExitCode::from(2);
    };
    for object in objects {
        if let Err(refusal) = show(&incoming, object) {
            println!("asked for object {object}: {refusal}");
            return ExitCode::FAILURE;
        }
    }
    println!("Roots are no holders: the virtual machine keeps a root, also one that nobody holds.");
    ExitCode::SUCCESS
}
