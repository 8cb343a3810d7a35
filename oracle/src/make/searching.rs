//! Stored cases: the search. Step limits are set by what the search takes when it is not limited.

use super::cases::Cases;
use super::chance::small_request;
use super::dice::Dice;
use super::shapes::*;
use crate::rates::Asked;
use crate::request::{Band, Demand, Request};
use crate::rules::Rules;
use crate::walk::{search, Outcome};

const MOST: u64 = u32::MAX as u64;

pub fn searching_cases(cases: &mut Cases) {
    worked_limits(cases);
    no_demands(cases);
    one_demand(cases);
    nothing_fits(cases);
    around_exact_limits(cases);
    rooms(cases);
    twenty(cases);
    by_chance(cases);
}

/// The long walks stand apart, so that they can come last.
pub fn long_cases(cases: &mut Cases) {
    for limit in [2_000, 20_000] {
        cases.search(limit, [20; 3], &nested(20, 60));
    }
    cases.search(MOST, [7; 3], &round(7, 3, 0));
    let wider = changed(&round(7, 20, 1), |request| request.demands[0].asked = Asked::Width(2));
    around_exact(cases, &wider);
    cases.search(100_000, [20; 3], &nested(20, 40));
}

/// How many steps the search takes without a limit that matters.
fn steps_of(request: &Request) -> u64 {
    let [mut starts, mut order, mut blockers] = [[0; 20]; 3];
    search(request, MOST, &mut starts, &mut order, &mut blockers, &Rules::right()).map_or(0, |found| found.steps)
}

fn with_limits(cases: &mut Cases, request: &Request, limits: &[u64]) {
    let count = request.demand_count;
    for &limit in limits {
        cases.search(limit, [count; 3], request);
    }
}

/// Limits 0, 1, all but one, exact, one more, and the largest.
fn around_exact(cases: &mut Cases, request: &Request) {
    let steps = steps_of(request);
    let mut limits = vec![0, 1, steps.saturating_sub(1), steps, steps + 1, MOST];
    limits.dedup();
    with_limits(cases, request, &limits);
}

fn worked_limits(cases: &mut Cases) {
    with_limits(cases, &worked(384, 0), &[0, 1, 2, 3, 4, 5, 6, 1_000_000, MOST]);
    with_limits(cases, &triangle(384), &[0, 1, 2, 3, 13, 14, 15, 16, MOST]);
}

fn no_demands(cases: &mut Cases) {
    for limit in [0, 1, MOST] {
        cases.search(limit, [0; 3], &bare(Band::new(-400, 1, 8)));
        cases.search(limit, [2, 1, 2], &bare(Band::new(400, 384, 0)));
    }
}

fn one_demand(cases: &mut Cases) {
    for limit in [0, 1, 2] {
        cases.search(limit, [1; 3], &stack(1, 8, &[1]));
        cases.search(limit, [1, 2, 1], &stack(384, 8, &[384]));
        cases.search(limit, [2, 1, 2], &stack(5, 0, &[3]));
    }
}

fn nothing_fits(cases: &mut Cases) {
    for limit in [0, 1, 1_000] {
        cases.search(limit, [3; 3], &worked(3, 0));
        cases.search(limit, [3, 4, 3], &worked(4, 1));
        cases.search(limit, [20; 3], &stack(384, 8, &[20; 20]));
    }
    for count in [19, 20] {
        cases.search(7, [20; 3], &stack(1, 0, &vec![1; count]));
    }
    around_exact(cases, &triangle(2));
    around_exact(cases, &round(5, 2, 0));
}

fn around_exact_limits(cases: &mut Cases) {
    for request in [
        worked(4, 0),
        worked(5, 1),
        worked(8, 1),
        worked(24, 8),
        triangle(3),
        round(4, 2, 0),
        round(4, 384, 1),
        round(5, 3, 0),
        round(5, 384, 0),
        round(5, 5, 1),
        round(5, 4, 1),
        stack(6, 0, &[1, 2, 3]),
        stack(8, 1, &[1, 2, 3]),
        stack(7, 1, &[1, 2, 3]),
        apart(5, 1),
        nested(5, 30),
        nested(6, 12),
        equal_ends(),
        bound_before_the_last(),
    ] {
        around_exact(cases, &request);
    }
}

/// Several orders with the same best end above the bound, and different starts.
fn equal_ends() -> Request {
    let mut request = triangle(9);
    for (demand, width) in request.demands.iter_mut().zip([2, 1, 3]) {
        demand.asked = Asked::Width(width);
    }
    with_demand(request, Demand::new(7, 2, &[1]))
}

/// A branch whose end equals the bound early, and whose best complete order ends at the bound.
fn bound_before_the_last() -> Request {
    let demands =
        vec![Demand::new(1, 4, &[0]), Demand::new(2, 2, &[1]), Demand::new(3, 1, &[1]), Demand::new(4, 1, &[2])];
    Request::new(Band::new(0, 6, 0), line(3), demands)
}

fn rooms(cases: &mut Cases) {
    for starts in [0, 2, 3, 5] {
        for order in [0, 2, 3, 6] {
            for blockers in [0, 2, 3, 7] {
                cases.search(100, [starts, order, blockers], &worked(384, 0));
            }
        }
    }
    for rooms in [[0, 0, 0], [3, 3, 2], [3, 2, 3], [2, 3, 3], [3, 2, 2], [2, 3, 2]] {
        cases.search(0, rooms, &worked(384, 0));
        cases.search(9, rooms, &worked(3, 0));
        cases.search(99, rooms, &triangle(2));
    }
    for rooms in [[20; 3], [19, 20, 20], [20, 19, 20], [20, 20, 19], [21; 3], [0; 3]] {
        cases.search(20, rooms, &apart(20, 1));
        cases.search(20, rooms, &apart(21, 1));
    }
}

fn twenty(cases: &mut Cases) {
    with_limits(cases, &apart(20, 2), &[0, 19, 20, 21, MOST]);
    with_limits(cases, &stack(20, 0, &[1; 20]), &[19, 20, MOST]);
    with_limits(cases, &stack(383, 8, &[11; 20]), &[20, 300]);
    with_limits(cases, &nested(20, 60), &[19, 20, 21, 500]);
    with_limits(cases, &nested(20, 38), &[300, 1_000]);
    for count in [21, 200] {
        cases.search(20, [200; 3], &stack(384, 0, &vec![1; count]));
    }
}

/// Small requests by chance, the same ones each time, so many of each kind.
fn by_chance(cases: &mut Cases) {
    let mut dice = Dice::new(20);
    let mut wanted = [12; 4];
    while wanted != [0; 4] {
        let request = small_request(&mut dice);
        let kind = kind_of(&request);
        if wanted[kind] > 0 {
            wanted[kind] -= 1;
            between_first_and_last(cases, &request);
        }
    }
}

/// 0 for a plan above the bound, 1 for a plan whose order turns three demands round, 2 for nothing that fits after
/// a walk, 3 for the rest.
fn kind_of(request: &Request) -> usize {
    let [mut starts, mut order, mut blockers] = [[0; 20]; 3];
    let Ok(found) = search(request, MOST, &mut starts, &mut order, &mut blockers, &Rules::right()) else { return 3 };
    let turned = (0..request.demand_count).any(|at| order[order[at] as usize] as usize != at);
    match found.outcome {
        Outcome::Finished if found.end > found.bound => 0,
        Outcome::Finished if turned => 1,
        Outcome::NoFit if found.steps > 0 => 2,
        _ => 3,
    }
}

/// Limits up to the exact one: at the first order reached, and on the way.
fn between_first_and_last(cases: &mut Cases, request: &Request) {
    let steps = steps_of(request);
    let first = request.demand_count as u64;
    let mut limits = vec![first.min(steps), (first + steps) / 2, steps.saturating_sub(1), steps];
    limits.dedup();
    with_limits(cases, request, &limits);
}
