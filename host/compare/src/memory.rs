//! Peak memory of one build, in a process of its own: how far its resident pages rise above what the input takes. By Linux's account of a process.
use std::fs;
use std::process::Command;

use yokefathom::Graph;

use crate::bench;
use crate::case::{Case, Route};
use crate::oracle;

#[derive(Clone, Copy, Debug)]
pub enum Side {
    Ours,
    Original,
}

/// A line of the process's account, in kilobytes.
fn kilobytes(name: &str) -> Option<u64> {
    let status = fs::read_to_string("/proc/self/status").ok()?;
    let line = status.lines().find_map(|line| line.strip_prefix(name))?;
    line.trim_start_matches(':').trim().trim_end_matches("kB").trim().parse().ok()
}

/// How far `work` raises the resident pages, if the system says.
fn rise<T>(work: impl FnOnce() -> T) -> Option<u64> {
    // 5 sets the highest number of resident pages back to the present one.
    fs::write("/proc/self/clear_refs", "5").ok()?;
    let before = kilobytes("VmRSS")?;
    let kept = work();
    let peak = kilobytes("VmHWM")?;
    drop(kept);
    Some(peak.saturating_sub(before))
}

fn of(case: &Case, side: Side, route: Route) -> Option<u64> {
    match side {
        Side::Ours => rise(|| Graph::build(&case.input(route)).expect("a graph")),
        Side::Original => {
            let ready = oracle::ready(case, route);
            let references = (route == Route::Copied).then(|| oracle::references(case));
            rise(|| ready.build(references).expect("a graph"))
        }
    }
}

/// The child's part: one build, and its rise on standard output.
pub fn run(side: &str, route: &str, objects: u64) {
    midden::parallel::set_threads(1);
    let side = if side == "Ours" { Side::Ours } else { Side::Original };
    let route = if route == "Copied" { Route::Copied } else { Route::Raw };
    if let Some(kilobytes) = of(&bench::case(objects, false), side, route) {
        println!("{kilobytes}");
    }
}

/// Peak kilobytes of a build, measured in a child.
pub fn peak(side: Side, route: Route, objects: u64) -> Option<u64> {
    let this = std::env::current_exe().ok()?;
    let words = ["peak".to_string(), format!("{side:?}"), format!("{route:?}"), objects.to_string()];
    let output = Command::new(this).args(words).output().ok()?;
    String::from_utf8(output.stdout).ok()?.trim().parse().ok()
}
