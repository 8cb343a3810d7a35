//! Requests from which cases are made.

use crate::rates::Asked;
use crate::request::{Band, Demand, Request};
use crate::rules::RATES;

/// Rates that are not in the table: next to one that is, of the same low or swapped bytes, or in use elsewhere.
pub const UNLISTED: [i64; 21] =
    [0, 1, 9, 11, 39, 41, 99, 101, 399, 401, 999, 1001, 65535, 25, 50, 200, 800, 266, 296, 356, 2560];

/// Links 0 to 1, 1 to 2 and so on.
pub fn line(count: usize) -> Vec<(u8, u8)> {
    (0..count).map(|link| (link as u8, link as u8 + 1)).collect()
}

/// Links 0 to 1, 1 to 2, ..., the last one back to 0.
pub fn ring(count: usize) -> Vec<(u8, u8)> {
    (0..count).map(|link| (link as u8, ((link + 1) % count) as u8)).collect()
}

/// The worked request R, with a band of its own.
pub fn worked(slots: i64, guard: i64) -> Request {
    let demands = vec![Demand::new(10, 2, &[0]), Demand::new(20, 1, &[0, 1]), Demand::new(30, 3, &[1])];
    Request::new(Band::new(-284, slots, guard), line(2), demands)
}

/// The worked triangle T.
pub fn triangle(slots: i64) -> Request {
    round(3, slots, 0)
}

/// A ring of links, and for each one a demand of width 1 on it and the next. T is the ring of three.
pub fn round(count: usize, slots: i64, guard: i64) -> Request {
    let demand = |at: usize| Demand::new(100 + at as i64, 1, &[at, (at + 1) % count]);
    Request::new(Band::new(0, slots, guard), ring(count), (0..count).map(demand).collect())
}

/// One link with demands of the given widths on it.
pub fn stack(slots: i64, guard: i64, widths: &[i64]) -> Request {
    let demand = |(at, &width): (usize, &i64)| Demand::new(at as i64, width, &[0]);
    Request::new(Band::new(-400, slots, guard), line(1), widths.iter().enumerate().map(demand).collect())
}

/// A line of links and one demand of width 1 on each.
pub fn apart(count: usize, slots: i64) -> Request {
    let demand = |at: usize| Demand::new(at as i64, 1, &[at]);
    Request::new(Band::new(400, slots, 8), line(count), (0..count).map(demand).collect())
}

/// The largest request: 64 links, 200 demands of 32 hops.
pub fn largest() -> Request {
    let demand = |at: usize| {
        let first = at % 33;
        Demand::new(65535 - at as i64, 1 + (at as i64 % 384), &(first..first + 32).collect::<Vec<_>>())
    };
    Request::new(Band::new(-400, 384, 8), line(64), (0..200).map(demand).collect())
}

/// As large, and every other demand by rate.
pub fn largest_mixed() -> Request {
    changed(&largest(), |request| {
        for (at, demand) in request.demands.iter_mut().enumerate().step_by(2) {
            demand.asked = Asked::Rate(RATES[at / 2 % RATES.len()].0);
        }
    })
}

/// Three full links with one best end, at the bound. The first demand must not be placed first: it has to stand on the fourth
/// and below the third, which the second pushes up.
pub fn wedged(guard: i64, room: i64) -> Request {
    let end = 5 + 2 * guard;
    let demands = vec![
        Demand::new(1, 1, &[1]),
        Demand::new(2, 2 + guard, &[0]),
        Demand::new(3, end - 2 - 2 * guard, &[0, 1]),
        Demand::new(4, 1, &[1, 2]),
        Demand::new(5, end - 1 - guard, &[2]),
    ];
    Request::new(Band::new(9, end + room, guard), line(3), demands)
}

/// Demands over one, two and three links of a ring, of changing widths: far from the bound.
pub fn nested(count: usize, slots: i64) -> Request {
    let demand = |at: usize| {
        let route: Vec<usize> = (at..=at + at % 3).map(|link| link % 5).collect();
        Demand::new(5 * at as i64, 1 + (at as i64 * 7) % 4, &route)
    };
    Request::new(Band::new(3, slots, 1), ring(5), (0..count).map(demand).collect())
}

/// A request without demands.
pub fn bare(band: Band) -> Request {
    Request::new(band, line(1), vec![])
}

/// Adds a demand, and keeps the list to what a frame holds.
pub fn with_demand(mut request: Request, demand: Demand) -> Request {
    request.demand_count += 1;
    if request.demands.len() < 200 {
        request.demands.push(demand);
    }
    request
}

/// States another number of links; those that are there and missing are taken from a line.
pub fn with_link_count(mut request: Request, count: usize) -> Request {
    request.link_count = count;
    request.links.truncate(count);
    for link in request.links.len()..count.min(64) {
        request.links.push((link as u8, link as u8 + 1));
    }
    request
}

/// States another number of demands; missing ones get idents from 1000 on.
pub fn with_demand_count(mut request: Request, count: usize) -> Request {
    request.demand_count = count;
    request.demands.truncate(count);
    for at in request.demands.len()..count.min(200) {
        request.demands.push(Demand::new(1000 + at as i64, 1, &[0]));
    }
    request
}

/// States another number of hops for a demand; missing ones are taken on from the last link of its route.
pub fn with_hops(mut request: Request, position: usize, hops: usize) -> Request {
    let demand = &mut request.demands[position];
    demand.hops = hops;
    demand.route.truncate(hops);
    for _ in demand.route.len()..hops.min(32) {
        let next = demand.route.last().map_or(0, |&link| (link + 1) % 256);
        demand.route.push(next);
    }
    request
}

/// The request changed in one thing.
pub fn changed(request: &Request, change: impl Fn(&mut Request)) -> Request {
    let mut copy = request.clone();
    change(&mut copy);
    copy
}
