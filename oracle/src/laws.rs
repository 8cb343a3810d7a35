//! What the rules promise about answers, held on the answers themselves.

use crate::answers::answer;
use crate::blocker_laws::{blockers_hold, one_holds, stuck_holds, Given};
use crate::certificate_laws::certificate_holds;
use crate::frames::Call;
use crate::frequency::{to_block, to_frequency};
use crate::group_laws::groups_hold;
use crate::path_laws::{paths_hold, read_paths_hold};
use crate::placing::first_fit;
use crate::plan::{check_starts, plan_bytes};
use crate::plan_file::read_plan;
use crate::rates::by_width;
use crate::request::{Band, Refusal, Request};
use crate::request_file::{read_request, written};
use crate::rules::Rules;
use crate::sound::test_request;
use crate::walk::{factorial, search, Found, Outcome};

/// Holds the laws on every call and prints the counts; false when one is broken.
pub fn check(calls: &[Call]) -> bool {
    let rules = Rules::right();
    let mut held = 0;
    let mut broken = 0;
    for (index, call) in calls.iter().enumerate() {
        match law(call, &rules) {
            Some(true) => held += 1,
            Some(false) => {
                broken += 1;
                println!("frame {}: {} breaks a law", index + 1, answer(call, &rules));
            }
            None => {}
        }
    }
    println!("laws: {held} answers hold them, {broken} break them");
    broken == 0 && held > 0
}

/// Whether the call's answer keeps its laws; `None` for a refusal other than 7, 13 and 30 or a call without one.
pub fn law(call: &Call, rules: &Rules) -> Option<bool> {
    both(own_law(call, rules), same_by_width(call, rules))
}

/// Both laws, where both speak of the answer.
fn both(one: Option<bool>, other: Option<bool>) -> Option<bool> {
    match (one, other) {
        (Some(one), Some(other)) => Some(one && other),
        (one, other) => one.or(other),
    }
}

fn own_law(call: &Call, rules: &Rules) -> Option<bool> {
    match call {
        Call::ReadRequest { file } => both(one_encoding(file, rules), read_paths_hold(file, rules)),
        Call::Sound { request } => paths_hold(request, rules),
        Call::WriteRequest { request, .. } => one_meaning(request, rules),
        Call::FirstFit { order, request, .. } => first_fit_law(request, order, rules),
        Call::Search { limit, request, .. } => search_law(request, *limit, rules),
        Call::Groups { count, request, .. } => groups_hold(request, *count, rules),
        Call::Check { starts, request } => first_fit_suffices(request, starts, rules),
        Call::WritePlan { starts, request, .. } => written_is_read(request, starts, rules),
        Call::Frequency { band, start, width } => there_and_back(band, *start, *width, rules),
        Call::Block { band, n, m } => back_and_there(band, *n, *m, rules),
        Call::PlaceOne { one } => one_holds(one, rules),
        Call::Certify { offer, request, .. } => certificate_holds(request, offer, rules),
        _ => None,
    }
}

/// A file that is read and then written is the same file.
fn one_encoding(file: &[u8], rules: &Rules) -> Option<bool> {
    let request = read_request(file, rules).ok()?;
    Some(written(&request, rules) == file)
}

/// A request that is written and then read is the same request, rates and all.
fn one_meaning(request: &Request, rules: &Rules) -> Option<bool> {
    test_request(request, rules).ok()?;
    Some(read_request(&written(request, rules), rules).as_ref() == Ok(request))
}

/// A request with rates is answered as the one that asks for their widths, refusals too. Only its file is another.
fn same_by_width(call: &Call, rules: &Rules) -> Option<bool> {
    if matches!(call, Call::WriteRequest { .. }) {
        return None;
    }
    let same = call.with_request(by_width(call.request()?)?);
    Some(answer(call, rules) == answer(&same, rules))
}

/// What is placed is allowed, and each blocker is in the way; where 13 comes nothing can be placed.
fn first_fit_law(request: &Request, order: &[usize], rules: &Rules) -> Option<bool> {
    let (placed, starts, blockers) = placed_in(request, order, rules);
    let given = Given { order, starts: &starts, blockers: &blockers };
    match placed {
        Ok(end) => Some(check_starts(request, &starts, rules) == Ok(end) && blockers_hold(request, &given, rules)),
        Err(refusal) if refusal.number == 13 => Some(stuck_holds(request, order, &refusal, rules)),
        Err(_) => None,
    }
}

/// First fit with buffers that are long enough: its answer, the starts and the blockers.
fn placed_in(request: &Request, order: &[usize], rules: &Rules) -> (Result<i64, Refusal>, Vec<i64>, Vec<u16>) {
    let mut starts = vec![0; request.demand_count];
    let mut blockers = starts.clone();
    let placed = first_fit(request, order, &mut starts, &mut blockers, rules);
    (placed, numbers(&starts), blockers)
}

fn numbers(entries: &[u16]) -> Vec<i64> {
    entries.iter().map(|&entry| entry as i64).collect()
}

/// First fit in the order of an allowed plan's starts finds a start for each demand, as low as the plan's or lower.
fn first_fit_suffices(request: &Request, starts: &[i64], rules: &Rules) -> Option<bool> {
    check_starts(request, starts, rules).ok()?;
    let mut order: Vec<usize> = (0..request.demand_count).collect();
    order.sort_by_key(|&position| (starts[position], position));
    let (placed, found, _) = placed_in(request, &order, rules);
    Some(placed.is_ok() && found.iter().zip(starts).all(|(found, given)| found <= given))
}

fn written_is_read(request: &Request, starts: &[i64], rules: &Rules) -> Option<bool> {
    let end = check_starts(request, starts, rules).ok()?;
    let mut out = vec![0; request.demand_count];
    let read = read_plan(request, &plan_bytes(request, starts, rules), &mut out, rules);
    Some(read == Ok(end) && numbers(&out)[..] == starts[..request.demand_count])
}

fn there_and_back(band: &Band, start: i64, width: i64, rules: &Rules) -> Option<bool> {
    let centre = to_frequency(band, start, width, rules).ok()?;
    Some(to_block(band, centre.n, centre.m, rules) == Ok((start, width)))
}

fn back_and_there(band: &Band, n: i64, m: i64, rules: &Rules) -> Option<bool> {
    let (start, width) = to_block(band, n, m, rules).ok()?;
    let centre = to_frequency(band, start, width, rules).ok()?;
    Some((centre.n, centre.m) == (n, m))
}

fn search_law(request: &Request, limit: u64, rules: &Rules) -> Option<bool> {
    let [mut starts, mut order, mut blockers] = [[0; 20]; 3];
    let found = search(request, limit, &mut starts, &mut order, &mut blockers, rules).ok()?;
    let order: Vec<usize> = order[..request.demand_count].iter().map(|&entry| entry as usize).collect();
    let starts = numbers(&starts[..request.demand_count]);
    let given = Given { order: &order, starts: &starts, blockers: &blockers[..request.demand_count] };
    Some(sums_hold(request, &found, &order) && plan_holds(request, &found, &given, rules))
}

/// The whole tree, or nothing fits: K!. A finish at the bound: the rank of the order. Unfinished: below K!.
fn sums_hold(request: &Request, found: &Found, order: &[usize]) -> bool {
    let sum = found.reached + found.ruled;
    let all = factorial(request.demand_count);
    match found.outcome {
        Outcome::Finished if found.end == found.bound => sum == rank(order),
        Outcome::Finished | Outcome::NoFit => sum == all,
        Outcome::Unfinished | Outcome::UnfinishedEmpty => sum < all,
    }
}

/// The rank, counted from 1, of an order among all orders in listing order.
fn rank(order: &[usize]) -> u128 {
    let before = |index: usize| {
        let lower = (0..order[index]).filter(|entry| !order[..index].contains(entry)).count() as u128;
        lower * factorial(order.len() - index - 1)
    };
    1 + (0..order.len()).map(before).sum::<u128>()
}

/// The plan is the first fit of its order, with the same blockers, and ends between the bound and S.
fn plan_holds(request: &Request, found: &Found, given: &Given, rules: &Rules) -> bool {
    if matches!(found.outcome, Outcome::NoFit | Outcome::UnfinishedEmpty) {
        return found.end == 0;
    }
    let (placed, starts, blockers) = placed_in(request, given.order, rules);
    placed == Ok(found.end)
        && starts == given.starts
        && blockers == given.blockers
        && blockers_hold(request, given, rules)
        && check_starts(request, &starts, rules) == Ok(found.end)
        && (found.bound..=request.band.slots).contains(&found.end)
}
