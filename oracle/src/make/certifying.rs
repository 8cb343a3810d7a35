//! Certificates: the stored cases, and cases by chance.

use super::cases::Cases;
use super::chance::{random_starts, request_of, small_request};
use super::dice::Dice;
use super::shapes::*;
use crate::certify::{certify, too_heavy, Certified, Offer};
use crate::frames::OFFERED_HELD;
use crate::pairs::share;
use crate::rates::Asked;
use crate::request::{Band, Demand, Request};
use crate::rules::Rules;
use crate::walk::search;

/// Numbers that a may not be.
const NO_MOST: [i64; 6] = [0, 3, 4, 128, 254, 255];

/// With more demands than this, lifting weights would take long.
const LIFTED_MOST: usize = 24;

pub fn certifying_cases(cases: &mut Cases) {
    all_weights(cases);
    rings(cases);
    routes_on_a_line(cases);
    shapes(cases);
    counts(cases);
    guards(cases);
    plans_first(cases);
    parallel_links(cases);
    by_rate(cases);
    many_demands(cases);
    by_chance(cases);
}

/// A certificate with as many weights as are given.
fn offer(starts: &[i64], weights: &[i64], most: i64) -> Offer {
    Offer { starts: starts.to_vec(), weights: weights.to_vec(), most }
}

/// Every way of weighing three demands from 0 to 2.
fn weighings() -> Vec<[i64; 3]> {
    (0..27).map(|at| [at / 9, at / 3 % 3, at % 3]).collect()
}

/// The worked request's demands 0 and 2 share no link.
fn all_weights(cases: &mut Cases) {
    for weights in weighings() {
        cases.certify(offer(&[0, 4, 0], &weights, 2), &worked(9, 1));
        if !weights.contains(&2) {
            cases.certify(offer(&[0, 3, 0], &weights, 1), &worked(384, 0));
        }
    }
    for weights in [[0, 1, 1], [1, 2, 1], [2, 2, 0]] {
        for starts in [[0, 2, 3], [1, 4, 0], [5, 0, 1]] {
            cases.certify(offer(&starts, &weights, 2), &worked(384, 0));
        }
    }
}

/// On a ring of three all demands share links, on a longer one those that are neighbours do: no three of five share none.
fn rings(cases: &mut Cases) {
    for (most, weights) in [(1, [1, 1, 1]), (2, [2, 2, 2]), (2, [1, 1, 1]), (2, [2, 1, 2]), (1, [1, 0, 1])] {
        cases.certify(offer(&[0, 1, 2], &weights, most), &triangle(3));
    }
    for (starts, guard) in [([0, 1, 0, 1, 2], 0), ([0, 2, 0, 2, 4], 1), ([0, 9, 0, 9, 18], 8)] {
        for (most, weights) in [(2, [1; 5]), (2, [2, 1, 1, 1, 1]), (2, [2, 2, 0, 0, 0]), (1, [0, 1, 0, 1, 1])] {
            cases.certify(offer(&starts, &weights, most), &round(5, 384, guard));
        }
    }
    let ones_but = |none: usize| (0..7).map(|at| (at != none) as i64).collect::<Vec<_>>();
    for none in [0, 6, 7] {
        cases.certify(offer(&[0, 1, 0, 1, 0, 1, 2], &ones_but(none), 2), &round(7, 384, 0));
    }
}

/// Six routes on a line, some of which share links and some not, so that it matters which of three do.
fn on_a_line(listed: [usize; 6]) -> Request {
    let routes: [&[usize]; 6] = [&[0, 1], &[1, 2], &[3], &[3, 4], &[5], &[4, 5, 6]];
    let demand = |at: usize| Demand::new(70 - at as i64, 1, routes[listed[at]]);
    Request::new(Band::new(0, 9, 0), line(7), (0..6).map(demand).collect())
}

/// Sets that weigh too much and begin with other demands; last, a three that begins lower than the first pair.
fn routes_on_a_line(cases: &mut Cases) {
    for listed in [[0, 5, 2, 1, 3, 4], [3, 1, 5, 0, 4, 2]] {
        for (most, weights) in [
            (2, [1, 1, 1, 1, 1, 1]),
            (2, [1, 2, 1, 0, 0, 2]),
            (2, [1, 1, 0, 1, 2, 0]),
            (2, [1, 0, 1, 0, 1, 0]),
            (2, [1, 1, 1, 0, 0, 0]),
            (2, [0, 0, 1, 1, 1, 1]),
            (1, [1, 1, 0, 0, 0, 1]),
        ] {
            cases.certify(offer(&[0, 1, 2, 3, 4, 5], &weights, most), &on_a_line(listed));
        }
    }
    cases.certify(offer(&[0, 1, 2, 3, 4, 5], &[1, 2, 1, 0, 1, 0], 2), &on_a_line([0, 1, 2, 3, 4, 5]));
}

/// Too few weights and too many, a's that may not be, weights above a, and what comes first of them.
fn shapes(cases: &mut Cases) {
    let request = worked(384, 0);
    for weights in [&[][..], &[0, 1], &[0, 1, 1], &[0, 1, 1, 0], &[9, 1], &[0, 1, 3], &[2, 0, 2]] {
        for most in [1, 2, 3] {
            cases.certify(offer(&[0, 3, 0], weights, most), &request);
        }
    }
    cases.certify(offer(&[0, 3, 0], &[0, 2, 0], 1), &request);
    for most in NO_MOST {
        cases.certify(offer(&[0, 3, 0], &[0; 3], most), &request);
    }
    for weights in [[3, 0, 0], [0, 3, 0], [0, 3, 255], [1, 3, 1], [2, 255, 2]] {
        cases.certify(offer(&[0, 3, 0], &weights, 2), &request);
    }
    for most in [0, 1, 2, 3, 255] {
        for weights in [&[][..], &[1]] {
            cases.certify(offer(&[], weights, most), &bare(Band::new(0, 1, 8)));
        }
    }
    cases.certify(offer(&[5], &[], 1), &bare(Band::new(0, 9, 0)));
}

/// More starts and weights than are needed, and more than a body holds.
fn counts(cases: &mut Cases) {
    let request = worked(384, 0);
    for starts in [&[0, 3, 0, 65535][..], &[0, 3, 0, 0, 3]] {
        cases.certify(offer(starts, &[0, 1, 1], 1), &request);
    }
    let starts: Vec<i64> = [0, 3, 0].into_iter().chain(std::iter::repeat(9)).take(OFFERED_HELD).collect();
    cases.certify_in([65_535, 3], offer(&starts, &[0, 1, 1], 1), &request);
    cases.certify_in([3, OFFERED_HELD + 3], offer(&[0, 3, 0], &[1; OFFERED_HELD], 2), &request);
}

/// The guard counts with each weight, and once less at the end; what is left is never below 0.
fn guards(cases: &mut Cases) {
    for guard in [0, 1, 8] {
        let request = stack(60, guard, &[2, 1, 4]);
        let starts = [0, 2 + guard, 3 + 2 * guard];
        for weights in [[0, 0, 0], [0, 1, 0], [0, 1, 1], [1, 1, 1]] {
            cases.certify(offer(&starts, &weights, 1), &request);
            cases.certify(offer(&starts, &weights, 2), &request);
        }
        cases.certify(offer(&starts, &[2, 1, 2], 2), &request);
        cases.certify(offer(&[9, 11 + guard, 12 + 2 * guard], &[2, 2, 2], 2), &request);
    }
}

/// A plan that is refused, beside a certificate that would be too or not.
fn plans_first(cases: &mut Cases) {
    for starts in [&[0, 3][..], &[0, 2, 2], &[0, 0, 384]] {
        for (weights, most) in [(&[0, 1, 1][..], 1), (&[0, 1], 1), (&[0, 1, 1], 3), (&[0, 3, 0], 2), (&[2, 0, 2], 2)] {
            cases.certify(offer(starts, weights, most), &worked(384, 0));
        }
    }
}

/// Links between the same two nodes, either way, are not the same link.
fn parallel_links(cases: &mut Cases) {
    let demands = [0, 1, 2].map(|link| Demand::new(9 - link as i64, 2, &[link]));
    let request = Request::new(Band::new(0, 6, 1), vec![(0, 1), (0, 1), (1, 0)], demands.to_vec());
    for (most, weights) in
        [(1, [1, 1, 0]), (1, [1, 0, 0]), (1, [0, 1, 1]), (2, [1, 1, 1]), (2, [1, 1, 0]), (2, [0, 0, 2])]
    {
        cases.certify(offer(&[0, 1, 2], &weights, most), &request);
    }
}

/// Widths that follow from rates.
fn by_rate(cases: &mut Cases) {
    let request = changed(&worked(40, 1), |request| {
        for (demand, rate) in request.demands.iter_mut().zip([400, 40, 1000]) {
            demand.asked = Asked::Rate(rate);
        }
    });
    for (most, weights) in [(1, [0, 1, 1]), (1, [1, 1, 0]), (2, [1, 2, 1]), (2, [0, 2, 2]), (1, [1, 1, 1])] {
        cases.certify(offer(&[0, 21, 0], &weights, most), &request);
    }
}

fn many_demands(cases: &mut Cases) {
    let starts: Vec<i64> = (0..200).rev().collect();
    cases.certify(offer(&starts, &[1; 200], 1), &stack(200, 0, &[1; 200]));
}

/// Small requests by chance, the same ones each time, so many of each kind.
fn by_chance(cases: &mut Cases) {
    let mut dice = Dice::new(30);
    let mut wanted = [5; 5];
    while wanted != [0; 5] {
        let request = small_request(&mut dice);
        let offer = random_offer(&mut dice, &request);
        let kind = kind_of(&request, &offer);
        if wanted[kind] > 0 {
            wanted[kind] -= 1;
            cases.certify(offer, &request);
        }
    }
}

/// 0 for a best plan by a = 2, 1 for another best plan, 2 for a plan that may not be best, 3 for three demands that weigh too
/// much though no two do, 4 for the rest.
fn kind_of(request: &Request, offer: &Offer) -> usize {
    match certify(request, offer, &Rules::right()) {
        Ok(Certified::Best(end)) if end > 0 && offer.weights.contains(&1) && offer.most == 2 => 0,
        Ok(Certified::Best(_)) => 1,
        Ok(Certified::AtLeast(..)) => 2,
        Err(refusal) if refusal.number == 30 && offer.most == 2 && !offer.weights.contains(&2) => 3,
        Err(_) => 4,
    }
}

/// Every other time with the request given, else with a sound one of some demands. Mostly a plan and a certificate that are ones,
/// else damaged.
pub fn random_certificate(cases: &mut Cases, dice: &mut Dice, given: &Request) {
    let request = if dice.one_in(2) { given.clone() } else { request_of(dice, (20, 384), (3, 12), (4, 10)) };
    let mut offer = random_offer(dice, &request);
    while dice.one_in(3) {
        damage_offer(&mut offer, dice);
    }
    cases.certify(offer, &request);
}

/// A plan, and weights that were found in one of several ways.
pub fn random_offer(dice: &mut Dice, request: &Request) -> Offer {
    let most = dice.pick(&[1, 1, 2, 2, 2]);
    let mut offer = Offer { starts: some_plan(dice, request), weights: vec![0; request.demands.len()], most };
    match dice.below(10) {
        0 => one_link(dice, request, &mut offer),
        1 => meeting_pairwise(dice, request, &mut offer),
        2 => offer.weights.iter_mut().for_each(|weight| *weight = dice.between(0, most)),
        3 => offer.weights.iter_mut().for_each(|weight| *weight = dice.between(0, 1)),
        4 | 5 => heavier_last(dice, &mut offer),
        _ if request.demands.len() > LIFTED_MOST => meeting_pairwise(dice, request, &mut offer),
        _ => lifted(dice, request, &mut offer),
    }
    offer
}

/// Mostly the plan of a search, where it finds one, else one by chance.
fn some_plan(dice: &mut Dice, request: &Request) -> Vec<i64> {
    let [mut starts, mut order, mut blockers] = [[0; 20]; 3];
    let found = search(request, 500, &mut starts, &mut order, &mut blockers, &Rules::right());
    if found.is_ok_and(|found| found.end > 0) && !dice.one_in(4) {
        return starts[..request.demand_count].iter().map(|&start| start as i64).collect();
    }
    random_starts(dice, request)
}

/// All demands on some link.
fn one_link(dice: &mut Dice, request: &Request, offer: &mut Offer) {
    let link = dice.below(request.links.len());
    for (demand, weight) in request.demands.iter().zip(&mut offer.weights) {
        if demand.route.contains(&link) {
            *weight = offer.most;
        }
    }
}

/// Every demand weighs, one of the last or a few more than the others: a three is too heavy, and a pair that begins behind it.
fn heavier_last(dice: &mut Dice, offer: &mut Offer) {
    offer.most = 2;
    offer.weights.fill(1);
    let heavier = dice.between(1, 3) as usize;
    offer.weights.iter_mut().rev().take(heavier).for_each(|weight| *weight = 2);
}

/// Demands of which every two share a link.
fn meeting_pairwise(dice: &mut Dice, request: &Request, offer: &mut Offer) {
    let mut members: Vec<usize> = Vec::new();
    for position in shuffled(dice, request) {
        if members.iter().all(|&member| share(request, member, position)) {
            members.push(position);
            offer.weights[position] = offer.most;
        }
    }
}

/// Weights raised one by one, in a sequence by chance, as far as a certificate lets them be.
fn lifted(dice: &mut Dice, request: &Request, offer: &mut Offer) {
    for more in [1, offer.most] {
        for position in shuffled(dice, request) {
            let before = std::mem::replace(&mut offer.weights[position], more);
            if too_heavy(request, offer) {
                offer.weights[position] = before;
            }
        }
    }
}

fn shuffled(dice: &mut Dice, request: &Request) -> Vec<usize> {
    let mut positions: Vec<usize> = (0..request.demands.len()).collect();
    dice.shuffle(&mut positions);
    positions
}

/// One weight or two above what one may be.
fn too_much(offer: &mut Offer, dice: &mut Dice) {
    for _ in 0..dice.between(1, 2) {
        let at = dice.below(offer.weights.len());
        if let Some(weight) = offer.weights.get_mut(at) {
            *weight = dice.pick(&[offer.most + 1, 3, 255]).min(255);
        }
    }
}

fn damage_offer(offer: &mut Offer, dice: &mut Dice) {
    let at = dice.below(offer.weights.len());
    match dice.below(8) {
        0 => offer.most = dice.pick(&NO_MOST),
        1 => offer.most = 3 - offer.most.clamp(1, 2),
        2 => drop(offer.weights.pop()),
        3 => offer.weights.push(dice.pick(&[0, 1, 255])),
        4 => too_much(offer, dice),
        _ if !offer.weights.is_empty() => offer.weights[at] = (offer.weights[at] + 1).min(offer.most),
        _ => {}
    }
}
