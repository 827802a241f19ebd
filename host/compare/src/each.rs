//! One question for a list of objects (M-104): against the original's loop, against the single question on columns that were damaged, and ROOM.
use midden::graph as original;
use yokefathom::compare::Whole;
use yokefathom::{Columns, Graph, LOADER, Refusal};

use crate::check::same;
use crate::lent::Outcome;
use crate::random::Random;
use crate::tally::Tally;

/// What is answered, and what two columns of these lengths hold afterwards, which were full of something.
type Asked = (Result<usize, Refusal>, Vec<u32>, Vec<u8>);

fn ask(columns: &Columns<'_>, objects: &[u32], label: u32, lengths: [usize; 2]) -> Asked {
    let (mut targets, mut found) = (vec![u32::MAX; lengths[0]], vec![u8::MAX; lengths[1]]);
    let said = Whole(*columns).fields_into(objects, label, &mut targets, &mut found);
    (said, targets, found)
}

/// What has to be: the single question of each object, or the first refusal, at its position.
fn expected(objects: &[u32], single: impl Fn(u32) -> Result<Option<u32>, Refusal>, lengths: [usize; 2]) -> Asked {
    let nothing = |said: Refusal| (Err(said), vec![0; lengths[0]], vec![0; lengths[1]]);
    if lengths.iter().any(|&length| length < objects.len()) {
        return nothing(Refusal::Room(12));
    }
    let mut all = (Ok(objects.len()), vec![0; lengths[0]], vec![0; lengths[1]]);
    for (at, &object) in objects.iter().enumerate() {
        match single(object) {
            Ok(held) => (all.1[at], all.2[at]) = (held.unwrap_or(0), u8::from(held.is_some())),
            Err(Refusal::Index(_)) => return nothing(Refusal::Index(at as u64)),
            Err(_) => return nothing(Refusal::Columns(at as u64)),
        }
    }
    all
}

/// Objects at random, some of them twice; now and then one that does not exist.
fn list(objects: u32, random: &mut Random) -> Vec<u32> {
    let mut list: Vec<u32> =
        (0..random.below(12)).map(|_| random.below(u64::from(objects)) as u32).filter(|&object| object < objects).collect();
    list.extend(list.clone().into_iter().filter(|_| random.chance(3)));
    if random.chance(4) {
        list.insert(random.below(list.len() as u64 + 1) as usize, objects + random.below(2) as u32);
    }
    list
}

/// Room to spare, exact room, and either column one short.
fn lengths(count: usize, random: &mut Random) -> [[usize; 2]; 4] {
    let (spare, fewer) = ([count + random.below(3) as usize, count + random.below(3) as usize], count.saturating_sub(1));
    [spare, [count; 2], [fewer, count], [count, fewer]]
}

/// Lists under the labels of some edges and under others. Asked the name count, the original finds the loader: there the rule is nothing.
pub fn compare(ours: &Graph, theirs: &original::Graph, names: usize, random: &mut Random, tally: &mut Tally) -> Outcome {
    for _ in 0..3 {
        let objects = list(theirs.root, random);
        let own = objects.iter().filter(|&&object| object < theirs.root).flat_map(|&object| theirs.edges(object).iter_coarse().last());
        let mut labels: Vec<u32> = own.map(|(_, label)| label).take(3).collect();
        labels.extend([0, LOADER, random.below(names as u64 + 2) as u32, random.next() as u32]);
        for label in labels {
            let single = |object: u32| match (object < theirs.root, label as usize == names) {
                (false, _) => Err(Refusal::Index(object.into())),
                (true, true) => Ok(None),
                (true, false) => Ok(theirs.field(object, label)),
            };
            for lengths in lengths(objects.len(), random) {
                tally.questions += objects.len() as u64;
                same(
                    &format!("{label} of each of {objects:?}"),
                    ask(&ours.columns(), &objects, label, lengths),
                    expected(&objects, single, lengths),
                )?;
            }
            let each = expected(&objects, single, [objects.len(); 2]);
            let held = each.0.map(|_| each.1.iter().zip(&each.2).map(|(&target, &found)| (found == 1).then_some(target)).collect());
            same("field of each", ours.field_of_each(&objects, label), held)?;
        }
    }
    Ok(())
}

/// On any columns each row is the single question.
pub fn damaged(columns: &Columns<'_>, random: &mut Random, tally: &mut Tally) -> Outcome {
    let objects = list(columns.short.len().saturating_sub(1) as u32, random);
    let label = *columns.fields.get(random.below(columns.fields.len() as u64) as usize).unwrap_or(&LOADER);
    let single = |object: u32| Whole(*columns).field(object, label);
    for lengths in lengths(objects.len(), random) {
        tally.questions += objects.len() as u64;
        same("field of each in damaged columns", ask(columns, &objects, label, lengths), expected(&objects, single, lengths))?;
    }
    Ok(())
}
