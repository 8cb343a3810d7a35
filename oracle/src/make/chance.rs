//! Cases by chance from a seed: requests, sound and damaged, and calls with them.

use super::cases::Cases;
use super::certifying::{random_certificate, random_offer};
use super::damage::{damage_file, damage_plainly, damage_request, damage_starts};
use super::dice::Dice;
use super::grouping::random_groups;
use super::ones::random_one;
use super::shapes::{ring, wedged};
use crate::bound::bound;
use crate::brute::plans_to_try;
use crate::fields::put_field;
use crate::placing::first_fit;
use crate::plan::row_body;
use crate::rates::Asked;
use crate::request::{Band, Demand, Request};
use crate::request_file::request_bytes;
use crate::rules::{Rules, RATES};
use crate::walk::search;

pub fn random_cases(seed: u64, count: usize) -> Cases {
    let mut dice = Dice::new(seed);
    let mut cases = Cases::default();
    while cases.calls.len() < count {
        random_call(&mut cases, &mut dice);
    }
    cases
}

/// Searches of small requests with a limit that lets most of them finish, and now and then as many groups as demands, or a plan
/// with a certificate.
pub fn small_searches(seed: u64, count: usize) -> Cases {
    let mut dice = Dice::new(seed);
    let mut cases = Cases::default();
    while cases.calls.len() < count {
        let request = small_request(&mut dice);
        if dice.one_in(4) {
            let count = if dice.one_in(4) { dice.between(1, 4) as usize } else { request.demand_count };
            cases.groups(count, &request);
            continue;
        }
        if dice.one_in(3) {
            let offer = random_offer(&mut dice, &request);
            cases.certify(offer, &request);
            continue;
        }
        let soon = request.demand_count + dice.below(12);
        let limit = dice.pick(&[soon as u64, 10_000, 10_000, 10_000]);
        cases.search(limit, [request.demand_count; 3], &request);
    }
    cases
}

fn random_call(cases: &mut Cases, dice: &mut Dice) {
    let request = random_request(dice);
    match dice.below(23) {
        0 | 1 => random_file(cases, dice, &request),
        2 => cases.sound(&request),
        3 => {
            let room = random_room(dice, request_bytes(&request).len());
            cases.write(room, &request);
        }
        4 => cases.bound(&request),
        5 | 6 => random_order(cases, dice, &request),
        7..=9 => random_search(cases, dice, &request),
        10 => {
            let starts = random_starts(dice, &request);
            cases.check(&starts, &request);
        }
        11 | 12 => random_plan_file(cases, dice, &request),
        13 | 14 => random_plan_writing(cases, dice, &request),
        15 => random_frequency(cases, dice),
        16 => random_block(cases, dice),
        17 | 18 => random_groups(cases, dice, &request),
        19 | 20 => random_certificate(cases, dice, &request),
        _ => cases.one(random_one(dice)),
    }
}

/// Mostly sound, mostly small.
fn random_request(dice: &mut Dice) -> Request {
    let mut request = match dice.below(30) {
        0..=12 => small_request(dice),
        13..=16 => wedged_request(dice),
        17..=24 => middling_request(dice),
        25 => request_of(dice, (1, 384), (1, 12), (19, 22)),
        26 | 27 => wide_request(dice),
        28 => long_request(dice),
        _ if dice.one_in(8) => large_request(dice),
        _ => request_of(dice, (1, 40), (1, 64), (0, 4)),
    };
    match dice.below(18) {
        0..=3 => damage_request(&mut request, dice),
        4..=6 => damage_plainly(&mut request, dice),
        _ => {}
    }
    request
}

/// A request whose plans can all be tried out; mostly one whose band is about as long as its bound.
pub fn small_request(dice: &mut Dice) -> Request {
    if dice.one_in(4) {
        return request_of(dice, (1, 8), (1, 5), (0, 6));
    }
    let mut tries = dice.below(60);
    loop {
        let request = tight_request(dice);
        tries = tries.saturating_sub(1);
        if plans_to_try(&request, &Rules::right()).is_some() && (tries == 0 || whole_tree(&request)) {
            return request;
        }
    }
}

/// Whether the walk goes through the whole tree.
fn whole_tree(request: &Request) -> bool {
    let [mut starts, mut order, mut blockers] = [[0; 20]; 3];
    let found = search(request, 10_000, &mut starts, &mut order, &mut blockers, &Rules::right());
    found.is_ok_and(|found| found.steps > 0 && found.end != found.bound)
}

/// Demands wedged in, often with two of them listed the other way round. With the third and the fourth so, the best order found
/// rests one demand on two, of which the one listed later was placed first.
pub fn wedged_request(dice: &mut Dice) -> Request {
    let mut request = wedged(dice.pick(&[0, 0, 1, 2]), dice.between(-1, 3));
    match dice.below(3) {
        0 => request.demands.swap(2, 3),
        1 => request.demands.swap(dice.below(5), dice.below(5)),
        _ => {}
    }
    same_by_rate(&mut request, dice);
    request
}

/// Routes of up to three links round a ring, and a band about as long as the bound.
fn tight_request(dice: &mut Dice) -> Request {
    let nodes = dice.between(3, 5) as usize;
    let guard = dice.pick(&[0, 0, 0, 1, 2]);
    let mut request = Request::new(Band::new(dice.between(-400, 400), 1, guard), ring(nodes), vec![]);
    for at in 0..dice.between(3, 6) {
        let first = dice.below(nodes);
        let hops = dice.pick(&[1, 2, 2, 2, 3]).min(nodes - 1);
        let route: Vec<usize> = (first..first + hops).map(|link| link % nodes).collect();
        request.demands.push(Demand::new(100 * at + dice.between(0, 99), dice.between(1, 3), &route));
    }
    request.demand_count = request.demands.len();
    some_by_rate(&mut request, 8, dice);
    tighten(&mut request, dice);
    request
}

/// A band from one slot less than the bound to three more, and no narrower than a demand.
fn tighten(request: &mut Request, dice: &mut Dice) {
    tighten_to(request, dice.between(-1, 3));
}

/// A band so much longer than the bound, no narrower than a demand and no wider than may be.
pub fn tighten_to(request: &mut Request, more: i64) {
    let rules = Rules::right();
    let widest = request.demands.iter().map(|demand| demand.width(&rules)).max().unwrap_or(1);
    request.band.slots = widest.max(bound(request, &rules) + more).min(rules.limits.slots_most);
}

/// As tight, with one of the high rates and now and then another.
fn wide_request(dice: &mut Dice) -> Request {
    let mut request = tight_request(dice);
    for _ in 0..dice.between(1, 2) {
        let at = dice.below(request.demands.len());
        request.demands[at].asked = Asked::Rate(dice.pick(&[100, 400, 1000, 1000]));
    }
    tighten(&mut request, dice);
    request
}

/// Few demands whose routes are long, up to the longest.
fn long_request(dice: &mut Dice) -> Request {
    let nodes = dice.between(33, 64) as usize;
    let mut request = request_of(dice, (4, 40), (1, 1), (1, 5));
    request.links = ring(nodes);
    request.link_count = nodes;
    for demand in &mut request.demands {
        let first = dice.below(nodes);
        demand.hops = dice.pick(&[10, 20, 31, 32, 32]);
        demand.route = (first..first + demand.hops).map(|link| link % nodes).collect();
    }
    request
}

fn middling_request(dice: &mut Dice) -> Request {
    request_of(dice, (1, 384), (1, 12), (0, 8))
}

/// Many demands, now and then all as wide as the band.
fn large_request(dice: &mut Dice) -> Request {
    let mut request = request_of(dice, (1, 384), (1, 64), (198, 200));
    if dice.one_in(2) {
        request.band.slots = dice.between(370, 384);
        request.demands.iter_mut().for_each(|demand| demand.asked = Asked::Width(request.band.slots));
    }
    request
}

/// A sound request; each pair gives the least and the most of slots, links and demands.
pub fn request_of(dice: &mut Dice, slots: (i64, i64), links: (i64, i64), demands: (i64, i64)) -> Request {
    let guards = [0, 0, 0, 1, 1, 2, 3, 8];
    let band = Band::new(dice.between(-400, 400), dice.between(slots.0, slots.1), dice.pick(&guards));
    let links = random_links(dice, links);
    let count = dice.between(demands.0, demands.1);
    let mut request = Request::new(band, links, vec![]);
    for _ in 0..count {
        let demand = random_demand(dice, &request);
        request.demands.push(demand);
    }
    request.demand_count = request.demands.len();
    let slots = request.band.slots;
    some_by_rate(&mut request, slots, dice);
    request
}

/// Every other time about half of the demands are by rate instead: mostly narrow, none wider than so many slots.
fn some_by_rate(request: &mut Request, most: i64, dice: &mut Dice) {
    if dice.one_in(2) {
        return;
    }
    for demand in &mut request.demands {
        let widest = if dice.one_in(4) { most } else { most.min(2) };
        let rates: Vec<i64> = RATES.iter().filter(|row| row.1 <= widest).map(|row| row.0).collect();
        if dice.one_in(2) {
            demand.asked = Asked::Rate(dice.pick(&rates));
        }
    }
}

/// Rates for some of the widths that a rate gives, so that every width stays.
fn same_by_rate(request: &mut Request, dice: &mut Dice) {
    for demand in &mut request.demands {
        let width = demand.width(&Rules::right());
        let rates: Vec<i64> = RATES.iter().filter(|row| row.1 == width).map(|row| row.0).collect();
        if !rates.is_empty() && dice.one_in(3) {
            demand.asked = Asked::Rate(dice.pick(&rates));
        }
    }
}

/// Links between few nodes, now and then between many; every other time the first of them run round.
fn random_links(dice: &mut Dice, (least, most): (i64, i64)) -> Vec<(u8, u8)> {
    let nodes = if dice.one_in(6) { dice.between(6, 40) } else { dice.between(2, 5) };
    let mut links: Vec<(u8, u8)> = if dice.one_in(2) { ring(nodes as usize) } else { vec![] };
    for _ in 0..most {
        links.push(random_link(dice, nodes));
    }
    links.truncate(dice.between(least, most) as usize);
    if dice.one_in(3) {
        renumber(&mut links, dice);
    }
    links
}

/// Other numbers for the nodes, each its own: those that were close differ in their high bits.
fn renumber(links: &mut [(u8, u8)], dice: &mut Dice) {
    let mask = dice.below(256) as u8;
    for (from, to) in links {
        *from = from.rotate_left(6) ^ mask;
        *to = to.rotate_left(6) ^ mask;
    }
}

fn random_link(dice: &mut Dice, nodes: i64) -> (u8, u8) {
    let from = dice.between(0, nodes - 1);
    let to = (from + dice.between(1, nodes - 1)) % nodes;
    (from as u8, to as u8)
}

fn random_demand(dice: &mut Dice, request: &Request) -> Demand {
    let ident = loop {
        let ident = if dice.one_in(10) { dice.pick(&[0, 1, 255, 256, 65535]) } else { dice.between(0, 65535) };
        if request.demands.iter().all(|demand| demand.ident != ident) {
            break ident;
        }
    };
    let slots = request.band.slots;
    let most = dice.pick(&[1, 2, 2, 2, 3, 4]).min(slots);
    let most = if dice.one_in(20) { slots } else { most };
    Demand::new(ident, dice.between(1, most), &random_route(dice, &request.links))
}

/// A route that meets no node twice.
fn random_route(dice: &mut Dice, links: &[(u8, u8)]) -> Vec<usize> {
    let mut route = vec![dice.below(links.len())];
    let most = if dice.one_in(12) { 32 } else { 3 };
    for _ in 1..dice.between(1, most) {
        let node = links[route[route.len() - 1]].1;
        let met = |node: u8| route.iter().any(|&link| links[link].0 == node || links[link].1 == node);
        let next: Vec<usize> = (0..links.len()).filter(|&link| links[link].0 == node && !met(links[link].1)).collect();
        if next.is_empty() {
            break;
        }
        route.push(dice.pick(&next));
    }
    route
}

/// What is needed, a little more or less, or nothing.
fn random_room(dice: &mut Dice, need: usize) -> usize {
    match dice.below(8) {
        0 => 0,
        1 => need.saturating_sub(1),
        2 => need + 1,
        3 => need + dice.below(10),
        4 => dice.below(need + 1),
        _ => need,
    }
}

/// One of them now and then, or all, by chance; else what is needed.
pub fn random_rooms<const COUNT: usize>(dice: &mut Dice, need: usize) -> [usize; COUNT] {
    let mut rooms = [need; COUNT];
    match dice.below(8) {
        0 => rooms = rooms.map(|need| random_room(dice, need)),
        1 | 2 => rooms[dice.below(COUNT)] = random_room(dice, need),
        _ => {}
    }
    rooms
}

fn random_file(cases: &mut Cases, dice: &mut Dice, request: &Request) {
    let mut file = request_bytes(request);
    while dice.one_in(2) {
        damage_file(&mut file, dice);
    }
    cases.read(&file);
}

fn random_permutation(dice: &mut Dice, count: usize) -> Vec<usize> {
    let mut order: Vec<usize> = (0..count).collect();
    dice.shuffle(&mut order);
    order
}

fn random_order(cases: &mut Cases, dice: &mut Dice, request: &Request) {
    let mut order = random_permutation(dice, request.demands.len());
    match dice.below(12) {
        0 => order.push(dice.below(3)),
        1 => drop(order.pop()),
        2 | 3 if !order.is_empty() => {
            let at = dice.below(order.len());
            order[at] = if dice.one_in(2) { dice.below(order.len()) } else { order.len() + dice.below(3) };
        }
        _ => {}
    }
    let mut rooms = random_rooms(dice, request.demands.len());
    if dice.one_in(6) {
        rooms[1] = random_room(dice, request.demands.len());
    }
    cases.place_in(rooms, &order, request);
}

fn random_search(cases: &mut Cases, dice: &mut Dice, request: &Request) {
    let count = request.demands.len();
    let few = dice.below(10) as u64;
    let soon = (count + dice.below(40)) as u64;
    let limit = dice.pick(&[few, soon, soon, 300, 2_000, 2_000]);
    let rooms = random_rooms(dice, count);
    cases.search(limit, rooms, request);
}

/// Starts that fit where first fit finds some, now and then damaged.
pub fn random_starts(dice: &mut Dice, request: &Request) -> Vec<i64> {
    let order = random_permutation(dice, request.demands.len());
    let mut found = vec![0; request.demands.len()];
    let mut blockers = found.clone();
    let placed = first_fit(request, &order, &mut found, &mut blockers, &Rules::right());
    let mut starts: Vec<i64> = found.into_iter().map(|start| start as i64).collect();
    if placed.is_err() {
        starts = starts.iter().map(|_| dice.between(0, request.band.slots)).collect();
    }
    while dice.one_in(2) {
        damage_starts(&mut starts, request.band.slots, dice);
    }
    starts
}

/// Every other time with a wide demand and mostly one start a slot too low, so that the plan rests on each width.
fn random_plan_writing(cases: &mut Cases, dice: &mut Dice, given: &Request) {
    let wide = dice.one_in(2);
    let request = if wide { wide_request(dice) } else { given.clone() };
    let mut starts = random_starts(dice, &request);
    if wide {
        lower_one(&mut starts, dice);
    }
    let room = random_room(dice, 7 * request.demands.len());
    cases.write_plan(room, &starts, &request);
}

/// One of the starts above 0, where there are some, a slot lower.
fn lower_one(starts: &mut [i64], dice: &mut Dice) {
    let mut raised: Vec<&mut i64> = starts.iter_mut().filter(|start| **start > 0).collect();
    if !raised.is_empty() {
        let at = dice.below(raised.len());
        *raised[at] -= 1;
    }
}

fn random_plan_file(cases: &mut Cases, dice: &mut Dice, request: &Request) {
    let starts = random_starts(dice, request);
    let mut rows: Vec<(i64, i64)> = request.demands.iter().map(|demand| demand.ident).zip(starts).collect();
    if dice.one_in(2) {
        dice.shuffle(&mut rows);
    }
    let mut file = Vec::new();
    for (ident, start) in rows {
        put_field(&mut file, 4, &row_body(ident, start));
    }
    while dice.one_in(3) {
        damage_file(&mut file, dice);
    }
    let room = random_room(dice, request.demands.len());
    cases.read_plan(room, &file, request);
}

fn random_band(dice: &mut Dice) -> Band {
    let n0 = if dice.one_in(12) { dice.pick(&[-401, 401, -400, 400]) } else { dice.between(-400, 400) };
    let slots = if dice.one_in(12) { dice.pick(&[0, 1, 384, 385]) } else { dice.between(1, 384) };
    let guard = if dice.one_in(12) { dice.pick(&[8, 9, 255]) } else { dice.between(0, 8) };
    Band::new(n0, slots, guard)
}

fn random_frequency(cases: &mut Cases, dice: &mut Dice) {
    let band = random_band(dice);
    let width = dice.between(0, band.slots.min(20) + 1);
    let start = if dice.one_in(10) { dice.between(65520, 65535) } else { dice.between(0, band.slots) };
    cases.frequency(&band, start, width);
}

fn random_block(cases: &mut Cases, dice: &mut Dice) {
    let band = random_band(dice);
    let m = dice.between(0, band.slots.min(20) + 1);
    let n = match dice.below(10) {
        0 => dice.between(i32::MIN as i64, i32::MAX as i64),
        3 => band.n0 + m + dice.pick(&[-65536, 65536]),
        1 | 2 => band.n0 + m + dice.between(-3, 3),
        _ => band.n0 + m + dice.between(-2, 2 * band.slots),
    };
    cases.block(&band, n, m);
}
