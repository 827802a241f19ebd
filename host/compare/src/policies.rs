//! The same references under every policy (M-111): a case is built under all four on both sides, and the four are held against each other.
use yokefathom::{Graph, ReferencePolicy};

use crate::case::{Case, Route};
use crate::check::{self, same};
use crate::lent::Outcome;
use crate::oracle;
use crate::tally::Tally;

/// An object's edges in order.
fn edges(graph: &Graph, object: u32) -> Result<Vec<(u32, u32)>, String> {
    Ok(graph.edges(object).map_err(|e| e.to_string())?.iter().collect())
}

/// Whether the first list is the second with some left out.
fn subsequence<T: PartialEq>(fewer: &[T], all: &[T]) -> bool {
    let mut rest = all.iter();
    fewer.iter().all(|one| rest.any(|other| other == one))
}

/// Whether an object's class has a weak slot. Arrays and classes have no slots.
fn has_weak_slot(case: &Case, object: usize) -> bool {
    case.kinds[object] == 0 && case.slot_weak[case.slots_of(case.classes[object] as usize)].contains(&1)
}

/// What is the same of all of a graph.
fn sums(graph: &Graph) -> (u64, u64, [[u64; 2]; 4]) {
    let rows = graph.account.kinds().map(|(_, row)| [row.edges + row.weak, row.missing]);
    (graph.edge_count() + graph.weak_edges().len() as u64, graph.dangling, rows)
}

/// Two graphs of one case, under policies of which the second keeps what the first keeps.
fn pair(case: &Case, fewer: &Graph, all: &Graph) -> Outcome {
    same("edges and weak pairs, dangling, account", sums(fewer), sums(all))?;
    same("roots", &fewer.roots, &all.roots)?;
    for object in 0..fewer.object_count() {
        let at = object as u32;
        same(&format!("what object {object} reaches"), fewer.reached(at), all.reached(at))?;
        let (less, more) = (edges(fewer, at)?, edges(all, at)?);
        if !has_weak_slot(case, object) {
            same(&format!("edges of object {object}, of a class without a weak slot"), &less, &more)?;
        }
        if !subsequence(&less, &more) {
            return Err(format!("object {object}: {less:?} is no subsequence of {more:?}"));
        }
    }
    Ok(())
}

/// The graphs of one case under [`ReferencePolicy::ALL`], in that order.
pub fn agree(case: &Case, graphs: &[Graph; 4], tally: &mut Tally) -> Outcome {
    for (less, fewer) in ReferencePolicy::ALL.into_iter().zip(graphs) {
        for (more, all) in ReferencePolicy::ALL.into_iter().zip(graphs).filter(|(more, _)| *more != less && more.covers(less)) {
            pair(case, fewer, all).map_err(|difference| format!("{less:?} and {more:?}: {difference}"))?;
        }
    }
    tally.policies += 1;
    Ok(())
}

/// A case by one route, under every policy: both sides build the same columns, and no policy loses a reference.
pub fn every(case: &Case, route: Route, tally: &mut Tally) -> Outcome {
    let mut graphs = Vec::new();
    for policy in ReferencePolicy::ALL {
        let case = case.clone().under(policy);
        let ours = Graph::build(&case.input(route)).map_err(|e| format!("{policy:?}: {e}"))?;
        check::columns(&ours, &oracle::build(&case, route)).map_err(|difference| format!("{policy:?}: {difference}"))?;
        graphs.push(ours);
    }
    agree(case, &graphs.try_into().expect("four graphs"), tally)
}
