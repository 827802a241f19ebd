//! What was compared, in all.
use std::fmt;

use crate::case::Route;

#[derive(Debug, Default)]
pub struct Tally {
    /// Graphs that both sides built, with every column compared: copied, raw, `from_parts`.
    pub graphs: [u64; 3],
    /// Of these, by the number of threads that the original ran with.
    pub threads: [u64; 9],
    /// Builds that were refused, by number.
    pub refused: [u64; 13],
    /// Refusals of `from_parts`, by number, and those of PARTS by column.
    pub handed: [u64; 13],
    pub columns: [u64; 6],
    /// Graphs whose incoming sides were compared, every column; their long offsets; and the refusals of inverting, by number.
    pub incoming: u64,
    pub incoming_long: u64,
    pub incoming_refused: [u64; 13],
    /// Cases of one route that were built under every policy, and found to have the same references.
    pub policies: u64,
    pub questions: u64,
    pub edges: u64,
    pub weak: u64,
    pub dangling: u64,
    pub long: u64,
    pub escapes: u64,
    /// Graphs whose fields are ranked by use, being more than the codes.
    pub ranked: u64,
    /// Questions that ask the name count: the one intended difference, where the original finds the loader.
    pub name_count: u64,
    /// Raw ids of size 4 with object ids that do not fit: the original can't express these.
    pub not_compared: u64,
}

impl Tally {
    pub fn graph_count(&self) -> u64 {
        self.graphs.iter().sum()
    }

    /// One more graph of both sides; no route stands for `from_parts`.
    pub fn graph(&mut self, route: Option<Route>, threads: usize) {
        self.graphs[route.map_or(2, |route| route as usize)] += 1;
        self.threads[threads.clamp(1, 8)] += 1;
    }

    /// A refusal of `from_parts`, as it said it.
    pub fn handed_refused(&mut self, says: &[u64]) {
        self.handed[says[0] as usize] += 1;
        if says[0] == 10 {
            self.columns[says[1] as usize] += 1;
        }
    }
}

/// Numbers that are not zero, each behind what it counts.
fn counts(numbers: &[u64]) -> String {
    let shown: Vec<String> =
        numbers.iter().enumerate().filter(|(_, count)| **count > 0).map(|(at, count)| format!("{at}: {count}")).collect();
    shown.join(", ")
}

impl fmt::Display for Tally {
    fn fmt(&self, f: &mut fmt::Formatter<'_>) -> fmt::Result {
        let [copied, raw, parts] = self.graphs;
        writeln!(f, "graphs of both sides: {} ({copied} copied, {raw} raw, {parts} from_parts)", self.graph_count())?;
        writeln!(f, "  by threads of the original: {}", counts(&self.threads))?;
        writeln!(
            f,
            "  with {} edges, {} weak pairs, {} dangling, {} long offsets, {} label escapes, {} of them with ranked fields",
            self.edges, self.weak, self.dangling, self.long, self.escapes, self.ranked
        )?;
        writeln!(
            f,
            "incoming sides: {}, with {} long offsets; refused, by number: {}",
            self.incoming,
            self.incoming_long,
            counts(&self.incoming_refused)
        )?;
        writeln!(f, "built under all four policies, with the same references: {}", self.policies)?;
        writeln!(f, "questions: {} ({} of them asked the name count)", self.questions, self.name_count)?;
        writeln!(f, "builds refused, by number: {}", counts(&self.refused))?;
        writeln!(f, "from_parts refused, by number: {}; PARTS by column: {}", counts(&self.handed), counts(&self.columns))?;
        write!(f, "accepted but beyond what the original can express: {}", self.not_compared)
    }
}
