//! What the rules promise about whole groups, held on the answers.

use crate::groups::{group_orders, Grouped};
use crate::placing::first_fit;
use crate::request::Request;
use crate::rules::Rules;
use crate::walk::{search, Outcome};

/// More groups than this are not tried out once more.
const TRIED_MOST: usize = 5;
const BEFORE: u16 = 43690;

/// What the call gave, and its buffers afterwards.
struct Given {
    found: Option<Grouped>,
    starts: Vec<u16>,
    blockers: Vec<u16>,
}

/// Only 1 to 8 groups, none of them empty, are answered, and that no order fits is no refusal. The answer is first fit's along
/// its order, the first of the lowest, and for as many groups as demands the search's.
pub fn groups_hold(request: &Request, count: usize, rules: &Rules) -> Option<bool> {
    let mut starts = vec![BEFORE; request.demand_count];
    let mut blockers = starts.clone();
    let found = match group_orders(request, count, &mut starts, &mut blockers, rules) {
        Ok(found) => found,
        Err(refusal) if refusal.number == 13 => return Some(false),
        Err(_) => return None,
    };
    let given = Given { found, starts, blockers };
    Some(
        (1..=request.demand_count.min(8)).contains(&count)
            && fits_as_told(request, count, &given, rules)
            && (count > TRIED_MOST || first_of_the_lowest(request, count, &given, rules))
            && (count != request.demand_count || as_searched(request, &given, rules)),
    )
}

/// First fit along the order told gives the same end, starts and blockers. Without an order nothing is written.
fn fits_as_told(request: &Request, count: usize, given: &Given, rules: &Rules) -> bool {
    let Some(told) = &given.found else {
        return given.starts.iter().chain(&given.blockers).all(|&entry| entry == BEFORE);
    };
    let mut sorted = told.groups.clone();
    sorted.sort();
    let mut starts = vec![BEFORE; request.demand_count];
    let mut blockers = starts.clone();
    sorted == (0..count).collect::<Vec<_>>()
        && first_fit(request, &turns(request, &told.groups), &mut starts, &mut blockers, rules) == Ok(told.end)
        && starts == given.starts
        && blockers == given.blockers
}

/// Orders listed before the one told are refused or end higher, others are refused or end no lower. Where none is told, all
/// are refused for want of a start.
fn first_of_the_lowest(request: &Request, count: usize, given: &Given, rules: &Rules) -> bool {
    let mut order: Vec<usize> = (0..count).collect();
    loop {
        let mut starts = vec![0; request.demand_count];
        let mut blockers = starts.clone();
        let placed = first_fit(request, &turns(request, &order), &mut starts, &mut blockers, rules);
        let kept = match (placed, &given.found) {
            (Err(refusal), _) => refusal.number == 13,
            (Ok(_), None) => false,
            (Ok(end), Some(told)) if order < told.groups => end > told.end,
            (Ok(end), Some(told)) => end >= told.end,
        };
        if !kept || !to_next(&mut order) {
            return kept;
        }
    }
}

/// The order that is listed right behind this one, if there is one.
fn to_next(order: &mut [usize]) -> bool {
    let Some(at) = (1..order.len()).rev().find(|&at| order[at - 1] < order[at]) else { return false };
    let Some(next) = (at..order.len()).rev().find(|&other| order[other] > order[at - 1]) else { return false };
    order.swap(at - 1, next);
    order[at..].reverse();
    true
}

/// The demands group by group. Group g begins behind g short groups and one more demand for each longer group before it.
fn turns(request: &Request, groups: &[usize]) -> Vec<usize> {
    let count = groups.len();
    let (short, longer) = (request.demand_count / count, request.demand_count % count);
    let first = |group: usize| group * short + group.min(longer);
    groups.iter().flat_map(|&group| first(group)..first(group + 1)).collect()
}

/// Groups of one demand each: the end and the order of a search that finishes, and nothing exactly where nothing fits.
fn as_searched(request: &Request, given: &Given, rules: &Rules) -> bool {
    let [mut starts, mut order, mut blockers] = [[0; 20]; 3];
    let searched = search(request, u32::MAX as u64, &mut starts, &mut order, &mut blockers, rules);
    let Ok(searched) = searched else { return false };
    let order = order[..request.demand_count].iter().map(|&entry| entry as usize);
    match &given.found {
        None => searched.outcome == Outcome::NoFit,
        Some(told) => {
            searched.outcome == Outcome::Finished && searched.end == told.end && order.eq(told.groups.iter().copied())
        }
    }
}
