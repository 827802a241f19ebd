//! The comparison with the original, and the benchmark.
//!
//!     compare random FIRST COUNT     seeds FIRST to FIRST + COUNT - 1, sound and damaged, both routes and `from_parts`
//!     compare graphs COUNT [FIRST]   mostly small seeds from FIRST on (1), until both sides have built COUNT graphs
//!     compare small                  every case of a small kind, and the limits
//!     compare limits                 the limits alone
//!     compare seconds N              all of these in part, with seeds from the clock's, for about N seconds
//!     compare dump FILE              a real dump, through the original's own index pass
//!     compare dropin COUNT [FIRST]   his published files over his `graph.rs` and over ours, on COUNT graphs of seeds from FIRST on (1)
//!     compare dropin-dump FILE       the same on a real dump
//!     compare dropin-bench OBJECTS   times of what these files compute over both, which `bench` prints too
//!     compare list FOLDER            the fixed list for `crates/replay`, written behind what the folder's `stdin` and `stdout` have of their own
//!     compare bench OBJECTS          times of both sides, and of inverting a graph against a plain sort of its edges
//!     compare late                   times of the label of one edge of a long array, which `bench` prints too
//!     compare growth                 times and peak memory of both sides at four sizes
extern crate midden;

mod bench;
mod case;
mod check;
mod dropin;
mod dump;
mod each;
mod extremes;
mod generate;
mod handed;
mod incoming;
mod late;
mod lent;
mod list;
mod memory;
mod oracle;
mod policies;
mod random;
mod small;
mod tally;
mod text;
mod verdict;

use std::time::{Duration, Instant, SystemTime, UNIX_EPOCH};

use case::{Case, ROUTES};
use generate::{Mix, Shape};
use random::Random;
use tally::Tally;

/// A run gives up after so many differences.
const ENOUGH: u64 = 20;

/// A case on both sides, by both routes, and its schema under `from_parts`; a difference is printed with its seed.
fn compare(name: &str, case: &Case, seed: u64, tally: &mut Tally) -> bool {
    let mut right = true;
    let mut tell = |what: &dyn std::fmt::Debug, outcome: lent::Outcome| {
        if let Err(difference) = outcome {
            println!("{name} {seed}, {what:?}: {difference}");
            right = false;
        }
    };
    for route in ROUTES {
        tell(&route, check::route(case, route, &mut Random::new(seed ^ 0x5EED), tally));
    }
    tell(&"from_parts", handed::under(case, &mut Random::new(seed ^ 0x9A27), tally));
    right
}

/// Two cases of a seed: a sound one, and the same damaged.
fn seed(seed: u64, mix: Mix, tally: &mut Tally) -> bool {
    let mut case = generate::case(seed, Shape::of_seed(seed, mix));
    let sound = compare("seed", &case, seed, tally);
    generate::damage(&mut case, &mut Random::new(seed ^ 0xDA3A6E));
    sound & compare("damaged seed", &case, seed, tally)
}

/// Every small case, or one of so many.
fn small(one_of: usize, tally: &mut Tally) -> u64 {
    let differing = small::all().enumerate().step_by(one_of).filter(|(at, case)| !compare("small", case, *at as u64, tally));
    differing.take(ENOUGH as usize).count() as u64
}

/// Seeds from one on, while there is more to do; how many there were, and how many differences.
fn seeds(first: u64, mix: Mix, tally: &mut Tally, more: impl Fn(u64, &Tally) -> bool) -> (u64, u64) {
    let (mut at, mut differences) = (first, 0);
    while more(at, tally) && differences < ENOUGH {
        differences += u64::from(!seed(at, mix, tally));
        at += 1;
    }
    (at - first, differences)
}

fn end(tally: &Tally, differences: u64) {
    println!("{tally}");
    println!("{} graphs compared, {differences} differences", tally.graph_count());
    std::process::exit(i32::from(differences > 0));
}

/// A part of every kind: the limit of places, one in 64 of the small cases, a hundred graphs under the original's other files, and seeds for the rest of
/// the time, half of it for those that are mostly small.
fn for_seconds(seconds: u64, tally: &mut Tally) -> u64 {
    let started = Instant::now();
    let first = SystemTime::now().duration_since(UNIX_EPOCH).expect("a clock").as_millis() as u64;
    let mut differences = extremes::run(false, tally) + small(64, tally) + dropin::graphs(first, 100);
    let left = Duration::from_secs(seconds).saturating_sub(started.elapsed());
    for mix in [Mix::Wide, Mix::Quick] {
        let started = Instant::now();
        let (count, differing) = seeds(first, mix, tally, |_, _| started.elapsed() < left / 2);
        differences += differing;
        match mix {
            Mix::Wide => println!("the limit of places, one in 64 of the small cases, then: compare random {first} {count}"),
            Mix::Quick => println!("and seeds {first} to {}: compare graphs N {first}", first + count),
        }
    }
    differences
}

fn main() {
    let words: Vec<String> = std::env::args().skip(1).collect();
    let words: Vec<&str> = words.iter().map(String::as_str).collect();
    let number = |at: usize| words.get(at).and_then(|word| word.parse::<u64>().ok());
    let tally = &mut Tally::default();
    let differences = match (words.as_slice(), number(1), number(2)) {
        (["random", ..], Some(first), Some(count)) => seeds(first, Mix::Wide, tally, |at, _| at < first + count).1,
        (["graphs", ..], Some(count), first) => {
            let first = first.unwrap_or(1);
            let (seeds, differences) = seeds(first, Mix::Quick, tally, |_, tally| tally.graph_count() < count);
            println!("seeds {first} to {}", first + seeds - 1);
            differences
        }
        (["small"], ..) => extremes::run(true, tally) + small(1, tally),
        (["limits"], ..) => extremes::run(true, tally),
        (["seconds", _], Some(seconds), None) => for_seconds(seconds, tally),
        (["dump", file], ..) => dump::run(file, tally),
        (["dropin", ..], Some(count), first) => std::process::exit(i32::from(dropin::graphs(first.unwrap_or(1), count) > 0)),
        (["dropin-dump", file], ..) => std::process::exit(i32::from(dropin::dump(file) > 0)),
        (["list", folder], ..) => return list::write(std::path::Path::new(folder)).expect("the folder can be written to"),
        (["bench", _], Some(objects), None) => return bench::run(objects),
        (["dropin-bench", _], Some(objects), None) => return bench::dropin(objects),
        (["late"], ..) => return late::run(),
        (["growth"], ..) => return bench::growth(),
        // What `dropin` and `growth` start for themselves.
        (["dropin-cache"], ..) => return dropin::cache(),
        (["peak", side, route, objects], ..) => return memory::run(side, route, objects.parse().expect("a number")),
        _ => {
            eprintln!(
                "compare random FIRST COUNT | graphs COUNT [FIRST] | small | limits | seconds N | dump FILE | dropin COUNT [FIRST] | dropin-dump FILE | dropin-bench OBJECTS | list FOLDER | bench OBJECTS | late | growth"
            );
            std::process::exit(2);
        }
    };
    end(tally, differences);
}
