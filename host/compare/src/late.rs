//! Times of the exact label of one edge of a long array (M-106): the original reads every code before it, we read back to the nearest escape.
use std::hint::black_box;

use yokefathom::{ARRAY_ELEMENT, Graph};

use crate::bench::{processor, timed};
use crate::case::{Case, Route};
use crate::oracle;

const RUNS: usize = 7;
const ELEMENTS: u64 = 1_000_000;

/// Object 0 is the array, object 1 what most of its places refer to. Each asked edge has a target of its own, so that `label_of` finds that edge.
const ARRAY: u32 = 0;
const OTHER: u32 = 1;

/// An array, by the place that each of its edges has, and the edges asked.
struct Array {
    what: &'static str,
    places: Vec<u64>,
    asked: [usize; 3],
}

/// With every thousandth place filled, without holes, and with a hole that needs an escape behind every 50,000 elements, asked a hundred edges behind one.
fn arrays() -> [Array; 3] {
    let ends = |places: &[u64]| [0, places.len() / 2, places.len() - 1];
    let [thousandth, whole] = [1000, 1].map(|step| (0..ELEMENTS / step).map(|at| at * step).collect::<Vec<_>>());
    let holes: Vec<u64> = (0..ELEMENTS).map(|at| at + 40_000 * (1 + at / 50_000)).collect();
    [
        Array { what: "every thousandth place filled", asked: ends(&thousandth), places: thousandth },
        Array { what: "no holes", asked: ends(&whole), places: whole },
        Array { what: "a long hole behind every 50,000", asked: [100, 500_100, 950_100], places: holes },
    ]
}

impl Array {
    fn case(&self) -> Case {
        let id = |object: u32| 0x1000 + 16 * u64::from(object);
        let mut case = Case { id_size: 8, names: 1, threads: 1, chunks: 8, ..Case::default() };
        let mut body = vec![0; self.places.last().map_or(0, |&last| last as usize + 1)];
        self.places.iter().for_each(|&place| body[place as usize] = id(OTHER));
        self.asked.iter().zip(OTHER + 1..).for_each(|(&edge, own)| body[self.places[edge] as usize] = id(own));
        case.object(id(ARRAY), 1, 0, &body.into_iter().flat_map(u64::to_be_bytes).collect::<Vec<_>>());
        (OTHER..OTHER + 4).for_each(|object| case.object(id(object), 2, 0, &[]));
        case.copy_ids(id(ARRAY));
        case
    }
}

/// A question, and how often it is asked at a time: so often that it takes about two milliseconds, since the first time finds no code in the cache.
struct Asked<F: Fn() -> u32> {
    ask: F,
    often: u32,
    least: f64,
}

impl<F: Fn() -> u32> Asked<F> {
    fn new(ask: F) -> Self {
        let mut times = Vec::new();
        timed(&mut times, || (0..10).map(|_| black_box(&ask)()).max());
        let often = (2e-2 / times[0]).clamp(1.0, 1e5) as u32;
        Asked { ask, often, least: f64::INFINITY }
    }

    /// One turn; the least time of one question so far, in nanoseconds.
    fn turn(&mut self) {
        let mut times = Vec::new();
        timed(&mut times, || (0..self.often).map(|_| black_box(&self.ask)()).max());
        self.least = self.least.min(times[0] * 1e9 / f64::from(self.often));
    }
}

/// One question on both sides, by turns; its answers are compared before.
fn question(what: &str, ours: impl Fn() -> u32, theirs: impl Fn() -> u32, expected: u32) {
    assert_eq!((ours(), theirs()), (expected, expected), "{what}");
    let (mut ours, mut theirs) = (Asked::new(ours), Asked::new(theirs));
    for _ in 0..RUNS {
        ours.turn();
        theirs.turn();
    }
    println!("| {what} | {:.0} | {:.0} | {:.4} |", ours.least, theirs.least, ours.least / theirs.least);
}

pub fn run() {
    midden::parallel::set_threads(1);
    println!("{}\n\n| Label of a late edge | ours, least ns | original, least ns | ratio |\n|---|---|---|---|", processor());
    for array in arrays() {
        let case = array.case();
        let ours = Graph::build(&case.input(Route::Copied)).expect("a graph");
        let theirs = oracle::ready(&case, Route::Copied).build(Some(oracle::references(&case))).expect("a graph");
        for (&edge, own) in array.asked.iter().zip(OTHER + 1..) {
            let label = ARRAY_ELEMENT + array.places[edge] as u32;
            let what = format!("{}, edge {edge} of {}", array.what, array.places.len());
            let exact = || ours.edges(ARRAY).expect("an array").exact(edge).expect("an edge");
            question(&what, exact, || theirs.edges(ARRAY).labels().nth(edge).expect("an edge"), label);
            let label_of = || ours.label_of(ARRAY, own).expect("an array").expect("an edge");
            question(&format!("{what}, by its target"), label_of, || theirs.label_of(ARRAY, own).expect("an edge"), label);
        }
    }
}
