//! `from_parts` on both sides: of a graph's own plain columns, of columns with any labels, gaps and targets, and of damaged ones.
use yokefathom::compare::CodedRoom;
use yokefathom::{Graph, Parts, Schema};

use crate::case::Case;
use crate::check::{self, said, same};
use crate::generate::{self, OwnParts};
use crate::incoming;
use crate::lent::{self, Outcome, Used};
use crate::oracle;
use crate::random::Random;
use crate::tally::Tally;
use crate::verdict;

/// One `from_parts` into columns that are full of something: what it says.
fn hand_spoiled(schema: &Schema<'_>, parts: &Parts<'_>, room: &mut CodedRoom) -> Result<Vec<u64>, String> {
    let says = said(&room.take_parts(schema, parts))?;
    let used = if says[0] == 0 { Used::of(&says, parts.offsets.len() - 1, schema.names) } else { Used::default() };
    lent::ends_are_zero(lent::coded(room, used))?;
    Ok(says)
}

fn room_is_refused(schema: &Schema<'_>, parts: &Parts<'_>, says: &[u64], random: &mut Random, tally: &mut Tally) -> Outcome {
    let mut room = CodedRoom::for_parts(schema, parts);
    let used = Used::of(says, parts.offsets.len() - 1, schema.names);
    lent::spoil(lent::coded(&mut room, used), random);
    let Some(lowest) = lent::cut(lent::coded(&mut room, used), random) else { return Ok(()) };
    let refused = hand_spoiled(schema, parts, &mut room)?;
    tally.handed_refused(&refused);
    same("ROOM of from_parts", refused, vec![9, lowest])
}

/// Plain columns on both sides: the refusal, or every column and question.
pub fn compare(case: &Case, parts: &Parts<'_>, random: &mut Random, tally: &mut Tally) -> Outcome {
    let schema = case.schema();
    let refusal = verdict::handed(case, parts);
    let mut room = CodedRoom::for_parts(&schema, parts);
    if refusal.is_some() {
        lent::shorten(lent::coded(&mut room, Used::default()));
    }
    lent::spoil(lent::coded(&mut room, Used::default()), random);
    let says = hand_spoiled(&schema, parts, &mut room)?;
    if let Some(refusal) = refusal {
        tally.handed_refused(&refusal);
        return same("refusal of from_parts", says, refusal);
    }
    same("answer of from_parts", says[0], 0)?;
    let ours = Graph::from_parts(&schema, parts).map_err(|e| e.to_string())?;
    room_is_refused(&schema, parts, &says, random, tally)?;
    let theirs = oracle::from_parts(case, parts);
    check::columns(&ours, &theirs)?;
    check::questions(&ours, &theirs, case.names, random, tally)?;
    incoming::compare(&ours, &theirs, random, tally)?;
    tally.graph(None, case.threads);
    check::count(&ours, tally);
    Ok(())
}

/// The plain columns of a finished graph.
pub fn plain(graph: &Graph) -> OwnParts {
    let (weak_from, weak_to) = graph.weak_edges().unzip();
    OwnParts {
        offsets: graph.offsets().collect(),
        targets: graph.all_targets().to_vec(),
        labels: graph.all_labels().collect(),
        weak_from,
        weak_to,
        roots: graph.roots.clone(),
        dangling: graph.dangling,
    }
}

/// A built graph handed over again is the same graph; then free columns under the same schema, and those damaged.
pub fn of_a_build(case: &Case, graph: &Graph, random: &mut Random, tally: &mut Tally) -> Outcome {
    let again = plain(graph);
    let ours = Graph::from_parts(&case.schema(), &again.lent()).map_err(|e| e.to_string())?;
    same("from_parts of a build", &ours, &graph.without_account())?;
    let mut free = generate::parts(case.ids.len(), case.names, random);
    compare(case, &free.lent(), random, tally)?;
    generate::damage_parts(&mut free, case.names, random);
    compare(case, &free.lent(), random, tally).map_err(|difference| format!("damaged parts: {difference}"))
}

/// Free columns under a schema that may be damaged.
pub fn under(case: &Case, random: &mut Random, tally: &mut Tally) -> Outcome {
    let free = generate::parts(random.below(5) as usize, case.names, random);
    compare(case, &free.lent(), random, tally)
}
