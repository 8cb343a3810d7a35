//! The making of cases: stored ones, shaped by hand, and ones by chance from a seed.

mod blocking;
mod cases;
mod certifying;
mod chance;
mod damage;
mod dice;
mod files;
mod fitting;
mod grid;
mod grouping;
mod longest;
mod memory;
mod ones;
mod paths;
mod planning;
mod rates;
mod searching;
pub mod shapes;
mod streams;

use crate::frames::{frame_of, Call};
use cases::Cases;

pub use streams::{damaged, malformed};

/// The stored calls, always the same. Long walks come last.
pub fn stored() -> Vec<Call> {
    let mut cases = Cases::default();
    files::file_cases(&mut cases);
    memory::memory_cases(&mut cases);
    rates::rate_cases(&mut cases);
    paths::path_cases(&mut cases);
    fitting::fitting_cases(&mut cases);
    blocking::blocking_cases(&mut cases);
    ones::one_cases(&mut cases);
    planning::planning_cases(&mut cases);
    grid::grid_cases(&mut cases);
    grouping::grouping_cases(&mut cases);
    certifying::certifying_cases(&mut cases);
    searching::searching_cases(&mut cases);
    searching::long_cases(&mut cases);
    grouping::long_cases(&mut cases);
    without_repeats(cases.calls)
}

fn without_repeats(calls: Vec<Call>) -> Vec<Call> {
    let mut seen = std::collections::HashSet::new();
    calls.into_iter().filter(|call| seen.insert(frame_of(call))).collect()
}

pub fn random(seed: u64, count: usize) -> Vec<Call> {
    chance::random_cases(seed, count).calls
}

pub fn small(seed: u64, count: usize) -> Vec<Call> {
    chance::small_searches(seed, count).calls
}

/// As long as frames get.
pub fn longest() -> Vec<Call> {
    longest::longest_cases().calls
}
