//! Whole groups: the stored cases, and cases by chance.

use super::cases::Cases;
use super::chance::{random_rooms, request_of, small_request, tighten_to, wedged_request};
use super::damage::damage_request;
use super::dice::Dice;
use super::shapes::*;
use crate::groups::group_orders;
use crate::orders::orders;
use crate::rates::Asked;
use crate::request::{Band, Demand, Request};
use crate::rules::Rules;
use crate::walk::factorial;

/// Counts of groups that are far off; the low byte or the low two bytes of some are small.
const FAR: [usize; 10] =
    [255, 256, 258, 65_535, 65_536, 65_538, 16_777_218, 2_147_483_648, 4_294_967_042, 4_294_967_295];

/// Cases by chance, but for a few, place no more demands than this in all orders together.
const PLACEMENTS_MOST: usize = 6_000;

pub fn grouping_cases(cases: &mut Cases) {
    worked_counts(cases);
    no_demands(cases);
    counts_and_lengths(cases);
    above_eight(cases);
    listings(cases);
    equal_ends(cases);
    narrowing(cases);
    nothing_found(cases);
    rooms(cases);
    by_rate(cases);
    many_demands(cases);
    by_chance(cases);
}

/// The most groups: all orders of seven and eight.
pub fn long_cases(cases: &mut Cases) {
    cases.groups(7, &nested(7, 16));
    cases.groups(7, &nested(10, 30));
    cases.groups(8, &nested(8, 16));
    cases.groups(8, &nested(8, 11));
    cases.groups(8, &nested(9, 40));
}

/// Every count that may be, and one too few and too many.
fn every_count(cases: &mut Cases, request: &Request) {
    for count in 0..=request.demand_count + 1 {
        cases.groups(count, request);
    }
}

fn worked_counts(cases: &mut Cases) {
    for request in [worked(384, 0), worked(8, 1), worked(5, 1), worked(4, 0), worked(3, 0), triangle(3), triangle(2)] {
        every_count(cases, &request);
    }
    for count in [4, 8, 9, 10].into_iter().chain(FAR) {
        cases.groups(count, &worked(384, 0));
    }
    for (guard, room) in [(0, 0), (0, 3), (1, 0), (8, 1)] {
        every_count(cases, &wedged(guard, room));
    }
}

/// No count will do.
fn no_demands(cases: &mut Cases) {
    for count in [0, 1, 2, 8, 9, 65_536, 4_294_967_295] {
        cases.groups(count, &bare(Band::new(0, 384, 8)));
        cases.groups_in([2, 1], count, &bare(Band::new(0, 1, 0)));
    }
}

/// Demands of other widths on routes of other lengths, so that each way of cutting them gives other starts.
fn counts_and_lengths(cases: &mut Cases) {
    for demands in [1, 2, 4, 5, 6, 7, 8] {
        for count in 1..=demands.min(5) {
            cases.groups(count, &nested(demands, 60));
        }
    }
    for (demands, count) in [(8, 6), (9, 4), (10, 4), (11, 4), (11, 3), (14, 5), (17, 3), (20, 3), (21, 4)] {
        cases.groups(count, &nested(demands, 90));
    }
}

/// In a band of one slot each order is refused at its second demand.
fn above_eight(cases: &mut Cases) {
    for demands in [8, 9, 10] {
        for count in [9, 10, 8] {
            cases.groups(count, &stack(1, 0, &vec![1; demands]));
        }
    }
    cases.groups(20, &nested(20, 60));
}

/// The same demands in every sequence of listing.
fn listings(cases: &mut Cases) {
    let request = changed(&nested(4, 9), |request| request.band.guard = 0);
    for order in orders(4) {
        let listed = changed(&request, |request| {
            request.demands = order.iter().map(|&position| request.demands[position].clone()).collect();
        });
        for count in [2, 3] {
            cases.groups(count, &listed);
        }
    }
}

/// All orders of the groups, or many, end alike.
fn equal_ends(cases: &mut Cases) {
    for count in [2, 3, 4] {
        cases.groups(count, &apart(4, 1));
        cases.groups(count, &stack(8, 0, &[2; 4]));
        cases.groups(count, &stack(12, 1, &[1, 3, 2, 3]));
        cases.groups(count, &round(5, 384, 0));
        cases.groups(count, &round(5, 5, 1));
    }
}

/// The band from where all orders fit to where none does.
fn narrowing(cases: &mut Cases) {
    for slots in [6, 8, 9, 10, 11, 13] {
        for (demands, count) in [(5, 3), (6, 4), (7, 2)] {
            cases.groups(count, &nested(demands, slots));
        }
    }
}

/// As many demands as fit beside one another and one more; demands as wide as the band; too little for the guard.
fn nothing_found(cases: &mut Cases) {
    for count in [1, 2, 3] {
        cases.groups(count, &stack(4, 0, &[2, 2, 1]));
        cases.groups(count, &stack(384, 0, &[384, 1, 384]));
        cases.groups(count, &stack(9, 8, &[1, 1, 1]));
        cases.groups_in([3, 5], count, &worked(3, 0));
    }
    for count in [4, 5] {
        cases.groups(count, &stack(4, 0, &[1; 5]));
    }
}

/// Too little room in one buffer or in both, with counts that will do and not, with a plan and without.
fn rooms(cases: &mut Cases) {
    for rooms in [[0, 0], [2, 3], [3, 2], [3, 0], [4, 3], [3, 6]] {
        for count in [0, 2, 4, 9] {
            cases.groups_in(rooms, count, &worked(384, 0));
        }
        for count in [3, 65_538] {
            cases.groups_in(rooms, count, &worked(3, 0));
        }
    }
}

/// Every rate among widths, in bands in which an order of the groups matters.
fn by_rate(cases: &mut Cases) {
    for (slots, guard) in [(384, 0), (30, 1), (22, 1), (21, 1), (20, 0)] {
        let request = changed(&worked(slots, guard), |request| {
            for (demand, rate) in request.demands.iter_mut().zip([400, 40, 1000]) {
                demand.asked = Asked::Rate(rate);
            }
        });
        for count in [1, 2, 3] {
            cases.groups(count, &with_demand(request.clone(), Demand::by_rate(7, 100, &[0, 1])));
        }
    }
}

fn many_demands(cases: &mut Cases) {
    let widths: Vec<i64> = (0..200).map(|at| 1 + at % 2).collect();
    cases.groups(3, &stack(300, 0, &widths));
    cases.groups(200, &stack(300, 0, &widths));
    cases.groups(4, &nested(50, 384));
    cases.groups(3, &nested(50, 60));
}

/// Small requests by chance, the same ones each time, so many of each kind.
fn by_chance(cases: &mut Cases) {
    let mut dice = Dice::new(24);
    let mut wanted = [10; 4];
    while wanted != [0; 4] {
        let request = small_request(&mut dice);
        let count = dice.between(1, request.demand_count.max(1) as i64) as usize;
        let kind = kind_of(&request, count);
        if wanted[kind] > 0 {
            wanted[kind] -= 1;
            cases.groups(count, &request);
        }
    }
}

/// 0 for an order of fewer groups than demands that turns three of them round, 1 for any other but the listing order, 2 for
/// nothing where more groups would fit, 3 for the rest.
fn kind_of(request: &Request, count: usize) -> usize {
    let groups = |count: usize| {
        let mut starts = vec![0; request.demand_count];
        let mut blockers = starts.clone();
        let found = group_orders(request, count, &mut starts, &mut blockers, &Rules::right());
        found.ok().map(|found| found.map(|grouped| grouped.groups))
    };
    match groups(count) {
        Some(Some(order)) if count < request.demand_count && (0..count).any(|at| order[order[at]] != at) => 0,
        Some(Some(order)) if !order.is_sorted() => 1,
        Some(None) if matches!(groups(request.demand_count), Some(Some(_))) => 2,
        _ => 3,
    }
}

/// How many demands are placed in all orders of the groups, each order to its end; none where the count is refused.
pub fn placements(count: usize, demands: usize) -> usize {
    if (1..=8).contains(&count) && count <= demands.min(200) {
        factorial(count) as usize * demands.min(200)
    } else {
        0
    }
}

/// Now and then a group for each demand wedged in. Else every other time the request given, or one of more demands. Where all orders would take too long the groups are fewer.
pub fn random_groups(cases: &mut Cases, dice: &mut Dice, given: &Request) {
    if dice.one_in(32) {
        return many_groups(cases, dice);
    }
    if dice.one_in(12) {
        return cases.groups(5, &wedged_request(dice));
    }
    let mut request = if dice.one_in(2) { given.clone() } else { longer_request(dice) };
    if dice.one_in(12) {
        damage_request(&mut request, dice);
    }
    let mut count = random_count(dice, request.demand_count);
    while placements(count, request.demand_count) > PLACEMENTS_MOST {
        count -= 1;
    }
    let rooms = random_rooms(dice, request.demands.len());
    cases.groups_in(rooms, count, &request);
}

/// Seven groups or eight, of few demands.
fn many_groups(cases: &mut Cases, dice: &mut Dice) {
    let count = dice.pick(&[7, 8]);
    let request = grouped_request(dice, (count, 11));
    cases.groups(count as usize, &request);
}

/// Rarely of very many demands.
fn longer_request(dice: &mut Dice) -> Request {
    let demands = if dice.one_in(40) { (100, 200) } else { (6, 24) };
    grouped_request(dice, demands)
}

/// Mostly in a band in which not every order fits, and often in one in which hardly any does.
fn grouped_request(dice: &mut Dice, demands: (i64, i64)) -> Request {
    let mut request = request_of(dice, (8, 384), (1, 12), demands);
    if !dice.one_in(4) {
        let most = dice.pick(&[1, 12]);
        let more = dice.between(-1, most);
        tighten_to(&mut request, more);
    }
    request
}

/// Mostly a count that may be; now and then none, a few too many, or far off. Without demands none may be, and mostly it is none.
fn random_count(dice: &mut Dice, demands: usize) -> usize {
    if demands == 0 && !dice.one_in(3) {
        return 0;
    }
    let most = demands.clamp(1, 8);
    match dice.below(16) {
        0 => dice.below(11),
        1 => demands + dice.below(2),
        2 => dice.pick(&FAR),
        3 => dice.pick(&[256, 65_536, 16_777_216]) + dice.below(9),
        4 => dice.below(1 << 32),
        5..=7 => most,
        _ => 1 + dice.below(most),
    }
}
