//! The worked dump of document 01 under every policy: `cargo run --example policies`. What one policy gives as an edge another gives as a weak pair, and
//! their sum is the same.
#[path = "../tests/common/mod.rs"]
mod common;

use common::built;
use yokefathom::{Graph, ReferencePolicy, Refusal};

/// What an object holds, and what it refers to weakly.
fn told(graph: &Graph, object: u32) -> Result<String, Refusal> {
    let edges: Vec<String> = graph.edges(object)?.iter().map(|(target, label)| format!("{target} by label {label:#x}")).collect();
    let weak: Vec<String> = graph.weak_referents(object)?.iter().map(|target| format!("{target} weakly")).collect();
    let all = [edges, weak].concat();
    Ok(if all.is_empty() { "nothing".to_string() } else { all.join(", ") })
}

fn show(policy: ReferencePolicy) -> Result<(), Refusal> {
    let graph = built(policy);
    let (edges, weak) = (graph.edge_count(), graph.weak_edges().len() as u64);
    println!("keep soft {}, keep weak {}: {edges} edges + {weak} weak pairs = {}", policy.soft, policy.weak, edges + weak);
    println!("  {} dangling, roots {:?}", graph.dangling, graph.roots);
    for object in 0..graph.object_count() as u32 {
        println!("  object {object}: {}", told(&graph, object)?);
    }
    Ok(())
}

fn main() -> Result<(), Refusal> {
    ReferencePolicy::ALL.into_iter().try_for_each(show)
}
