//! Stored cases: what was in the way.

use super::cases::Cases;
use super::shapes::*;
use crate::orders::orders;
use crate::request::{Band, Demand, Request};

const MOST: u64 = u32::MAX as u64;

pub fn blocking_cases(cases: &mut Cases) {
    several_in_the_way(cases);
    placed_later(cases);
    as_wide_as_the_band(cases);
    in_the_way_at_the_top(cases);
    rooms(cases);
    searched(cases);
}

/// A line of links with a tooth on each, and one demand over all of them, at a listing position of its own.
fn comb(band: Band, teeth: &[i64], long: i64, at: usize) -> Request {
    let tooth = |(link, &width): (usize, &i64)| Demand::new(900 - 7 * link as i64, width, &[link]);
    let mut demands: Vec<Demand> = teeth.iter().enumerate().map(tooth).collect();
    demands.insert(at, Demand::new(500, long, &(0..teeth.len()).collect::<Vec<_>>()));
    Request::new(band, line(teeth.len()), demands)
}

/// The long demand comes last and is pushed up by one tooth or by several that end together; in a band one slot shorter
/// it finds no start.
fn several_in_the_way(cases: &mut Cases) {
    for teeth in [[2, 2, 2], [1, 3, 3], [3, 3, 1], [3, 1, 3]] {
        for at in 0..=3 {
            for guard in [0, 1] {
                let end = teeth.iter().max().map_or(0, |tooth| tooth + guard + 2);
                for turns in [[0, 1, 2], [2, 1, 0], [1, 2, 0]] {
                    let tooth = |turn: usize| if turn < at { turn } else { turn + 1 };
                    let order = [&turns.map(tooth)[..], &[at]].concat();
                    cases.place(4, &order, &comb(Band::new(0, end, guard), &teeth, 2, at));
                    cases.place(4, &order, &comb(Band::new(0, end - 1, guard), &teeth, 2, at));
                }
            }
        }
    }
}

/// The first two end together on two links. The third holds both links; what is placed after it may come to stand right
/// below it and is not what pushed it up.
fn both_sides(guard: i64, widths: [i64; 4]) -> Request {
    let routes: [&[usize]; 4] = [&[0], &[1], &[0, 1], &[0]];
    let demand = |at: usize| Demand::new(40 - at as i64, widths[at], routes[at]);
    Request::new(Band::new(-7, 9 + guard, guard), line(2), (0..4).map(demand).collect())
}

fn placed_later(cases: &mut Cases) {
    for (guard, widths) in [(0, [2, 2, 1, 2]), (1, [2, 2, 1, 1]), (0, [1, 2, 3, 1]), (2, [3, 3, 2, 3])] {
        for order in orders(4) {
            cases.place(4, &order, &both_sides(guard, widths));
        }
    }
}

/// S - w is 0 then, and somebody stands there all the same.
fn as_wide_as_the_band(cases: &mut Cases) {
    for order in orders(3) {
        cases.place(3, &order, &stack(4, 0, &[1, 1, 4]));
        cases.place(3, &order, &stack(4, 1, &[4, 1, 1]));
        cases.place(3, &order, &stack(1, 8, &[1, 1, 1]));
    }
    for at in 0..=2 {
        for order in orders(3) {
            cases.place(3, &order, &comb(Band::new(0, 6, 1), &[1, 3], 6, at));
        }
    }
    cases.place(2, &[1, 0], &stack(384, 8, &[384, 1]));
}

/// Who is in the way at S - w is not who is in the way at 0, nor one higher or lower.
fn in_the_way_at_the_top(cases: &mut Cases) {
    for order in orders(4) {
        cases.place(4, &order, &stack(6, 0, &[2, 1, 2, 2]));
        cases.place(4, &order, &stack(9, 1, &[3, 1, 2, 2]));
        cases.place(4, &order, &stack(8, 2, &[1, 1, 1, 1]));
    }
}

/// Too little room in one buffer or in both, with a plan and where 13 would be due.
fn rooms(cases: &mut Cases) {
    for starts in [0, 2, 3, 4] {
        for blockers in [0, 2, 3, 5] {
            for request in [worked(384, 1), worked(3, 0)] {
                cases.place_in([starts, blockers], &[2, 1, 0], &request);
            }
        }
    }
    for rooms in [[0, 3], [3, 0], [0, 0]] {
        cases.place_in(rooms, &[], &bare(Band::new(0, 384, 8)));
        cases.place_in(rooms, &[0], &bare(Band::new(0, 384, 8)));
        cases.place_in(rooms, &[0, 0, 1], &worked(3, 0));
    }
}

/// The same demands in every sequence of listing, so that the order found is rarely the listing order.
fn searched(cases: &mut Cases) {
    for (guard, widths) in [(0, [2, 2, 1, 2]), (1, [1, 2, 3, 1])] {
        let request = both_sides(guard, widths);
        for order in orders(4) {
            let listed = changed(&request, |request| {
                request.demands = order.iter().map(|&position| request.demands[position].clone()).collect();
            });
            cases.search(MOST, [4; 3], &listed);
            cases.search(5, [5, 4, 6], &listed);
        }
    }
    for (guard, room) in [(0, 0), (0, 3), (1, 0), (8, 1)] {
        let request = wedged(guard, room);
        cases.place(5, &[1, 2, 3, 0, 4], &request);
        cases.place(5, &[1, 3, 0, 2, 4], &request);
        for listed in [request.clone(), changed(&request, |request| request.demands.swap(2, 3))] {
            cases.search(MOST, [5; 3], &listed);
            cases.search(40, [5; 3], &listed);
        }
    }
    for at in 0..=3 {
        cases.search(MOST, [4; 3], &comb(Band::new(0, 384, 1), &[3, 1, 3], 2, at));
        cases.search(4, [4; 3], &comb(Band::new(0, 384, 0), &[2, 2, 2], 3, at));
    }
}
