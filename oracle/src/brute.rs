//! The best end by brute force over all plans: every start of every demand, clashes told by the stated inequality.

use crate::pairs::clash;
use crate::request::Request;
use crate::rules::Rules;

/// More plans than this are not tried out.
const PLANS_MOST: u64 = 2_000_000;

/// How many starts there are for all demands together, if not too many.
pub fn plans_to_try(request: &Request, rules: &Rules) -> Option<u64> {
    let mut plans: u64 = 1;
    for demand in &request.demands {
        plans *= (request.band.slots - demand.width(rules) + 1) as u64;
        if plans > PLANS_MOST {
            return None;
        }
    }
    Some(plans)
}

/// The lowest end of all allowed plans, `None` when there is no allowed plan.
pub fn best_end(request: &Request, rules: &Rules) -> Option<i64> {
    let mut best = None;
    try_starts(request, &mut Vec::new(), &mut best, rules);
    best
}

/// Whether these starts, one for each demand at the front, are an allowed plan of this end.
pub fn is_plan(request: &Request, starts: &[i64], end: i64, rules: &Rules) -> Option<bool> {
    let starts = starts.get(..request.demands.len())?;
    let apart = (0..starts.len()).all(|position| !clashes_with_earlier(request, starts, position, rules));
    Some(apart && end_of(request, starts, rules) == end && end <= request.band.slots)
}

fn try_starts(request: &Request, starts: &mut Vec<i64>, best: &mut Option<i64>, rules: &Rules) {
    let position = starts.len();
    if position == request.demands.len() {
        let end = end_of(request, starts, rules);
        *best = Some(best.map_or(end, |lowest| lowest.min(end)));
        return;
    }
    for start in 0..=request.band.slots - request.width(position, rules) {
        starts.push(start);
        if !clashes_with_earlier(request, starts, position, rules) {
            try_starts(request, starts, best, rules);
        }
        starts.pop();
    }
}

fn end_of(request: &Request, starts: &[i64], rules: &Rules) -> i64 {
    let end = |position: usize| starts[position] + request.width(position, rules);
    (0..starts.len()).map(end).max().unwrap_or(0)
}

fn clashes_with_earlier(request: &Request, starts: &[i64], position: usize, rules: &Rules) -> bool {
    (0..position).any(|other| clash(request, (other, starts[other]), (position, starts[position]), rules))
}
