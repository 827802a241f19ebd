//! The worked dump of document 01, from columns to answers, by both routes: `cargo run --example worked`.
#[path = "../tests/common/mod.rs"]
mod common;

use common::{COPIED, OBJECTS, bodies, worked};
use yokefathom::{ARRAY_ELEMENT, Graph, Input, LOADER, Objects, References, Refusal};

fn show(route: &str, input: &Input<'_>) -> Result<(), Refusal> {
    let graph = Graph::build(input)?;
    println!("{route}: offsets {:?}, targets {:?}", graph.offsets().collect::<Vec<_>>(), graph.all_targets());
    println!("  codes {:x?}, weak pairs {:?}, dangling {}", graph.columns().codes, graph.weak_edges().collect::<Vec<_>>(), graph.dangling);
    println!("  roots {:?}, account\n{}", graph.roots, graph.account);
    println!("  field(2, ARRAY_ELEMENT) = {:?}", graph.field(2, ARRAY_ELEMENT)?);
    println!("  field(2, ARRAY_ELEMENT + 1) = {:?}", graph.field(2, ARRAY_ELEMENT + 1)?);
    println!("  field(3, LOADER) = {:?}, referent(1, 1) = {:?}", graph.field(3, LOADER)?, graph.referent(1, 1)?);
    for (target, label) in graph.edges(3)?.iter() {
        println!("  object 3 holds object {target} by {label}");
    }
    match graph.span(4) {
        Ok(span) => println!("  object 4 has edges {span:?}"),
        Err(refusal) => println!("  asked for object 4: {refusal}"),
    }
    Ok(())
}

fn main() -> Result<(), Refusal> {
    let (bytes, starts, lengths) = bodies(8);
    let raw = References::Raw { bytes: &bytes, id_size: 8, starts: &starts, lengths: &lengths };
    for (route, references) in [("copied", COPIED), ("raw", raw)] {
        show(route, &worked(references))?;
    }
    let damaged = Input { objects: Objects { ids: &[256, 256, 512, 4096], ..OBJECTS }, roots: &[], ..worked(raw) };
    match Graph::build(&damaged) {
        Ok(_) => println!("a damaged dump was accepted"),
        Err(refusal) => println!("damaged: {refusal}"),
    }
    Ok(())
}
