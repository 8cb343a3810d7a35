//! Stored cases: first fit.

use super::cases::Cases;
use super::shapes::*;
use crate::request::{Band, Demand, Request};

pub fn fitting_cases(cases: &mut Cases) {
    every_order(cases);
    guards_and_gaps(cases);
    no_start(cases);
    not_an_order(cases);
    rooms(cases);
    many_demands(cases);
    two_faults(cases);
}

fn every_order(cases: &mut Cases) {
    for request in [worked(384, 0), worked(8, 1), worked(5, 1), worked(4, 0), triangle(3), triangle(2)] {
        for order in [[0, 1, 2], [0, 2, 1], [1, 0, 2], [1, 2, 0], [2, 0, 1], [2, 1, 0]] {
            cases.place(3, &order, &request);
        }
    }
}

/// A long demand over the whole line holds others apart; between those a gap is left that just fits or just does not.
fn gap(width: i64, guard: i64, slots: i64) -> Request {
    let demands = vec![
        Demand::new(1, 2, &[0]),
        Demand::new(2, 4, &[1]),
        Demand::new(3, 3, &[0, 1]),
        Demand::new(4, width, &[0]),
        Demand::new(5, 1, &[1]),
    ];
    Request::new(Band::new(0, slots, guard), line(2), demands)
}

fn guards_and_gaps(cases: &mut Cases) {
    for (width, guard) in [(1, 0), (2, 0), (3, 0), (1, 1), (2, 1), (1, 2), (1, 8), (3, 8)] {
        cases.place(5, &[0, 1, 2, 3, 4], &gap(width, guard, 384));
        cases.place(5, &[1, 2, 0, 3, 4], &gap(width, guard, 384));
        cases.place(5, &[4, 3, 2, 1, 0], &gap(width, guard, 384));
    }
    for guard in [0, 1, 8] {
        cases.place(1, &[0], &stack(3, guard, &[3]));
        cases.place(2, &[1, 0], &stack(9 + guard, guard, &[4, 5]));
        cases.place(2, &[1, 0], &stack(8 + guard, guard, &[4, 5]));
        cases.place(4, &[3, 1, 2, 0], &apart(4, 1));
    }
    let parallel = vec![(0, 1), (0, 1)];
    let side_by_side = vec![Demand::new(1, 2, &[0]), Demand::new(2, 2, &[1])];
    cases.place(2, &[0, 1], &Request::new(Band::new(0, 3, 1), parallel, side_by_side));
}

fn no_start(cases: &mut Cases) {
    cases.place(3, &[2, 0, 1], &worked(3, 0));
    cases.place(3, &[1, 2, 0], &worked(3, 0));
    cases.place(3, &[2, 0, 1], &stack(4, 0, &[2, 3, 1]));
    cases.place(6, &[2, 1, 0], &stack(4, 2, &[2, 1, 1]));
    cases.place(2, &[1, 0], &stack(384, 0, &[384, 384]));
    cases.place(2, &[0, 1], &stack(384, 8, &[376, 1]));
    cases.place(2, &[0, 1], &stack(384, 8, &[375, 1]));
}

fn not_an_order(cases: &mut Cases) {
    let request = worked(384, 0);
    for order in [
        &[][..],
        &[0],
        &[0, 1],
        &[0, 1, 2, 3],
        &[0, 1, 2, 0],
        &[0, 1, 3],
        &[3, 1, 2],
        &[0, 0, 1],
        &[2, 1, 2],
        &[1, 1, 1],
        &[0, 3, 3],
        &[65535, 0, 0],
        &[2, 65535, 2],
        &[5, 5],
        &[9, 9, 9, 9],
    ] {
        cases.place(4, order, &request);
    }
    cases.place(0, &[0], &bare(Band::new(0, 1, 0)));
    cases.place(2, &[0, 1, 2], &bare(Band::new(0, 1, 0)));
    cases.place(1, &[1], &stack(1, 0, &[1]));
}

fn rooms(cases: &mut Cases) {
    for room in [0, 1, 2, 3, 4, 12] {
        cases.place(room, &[2, 1, 0], &worked(384, 1));
    }
    cases.place(0, &[], &bare(Band::new(0, 384, 8)));
    cases.place(3, &[], &bare(Band::new(0, 384, 8)));
    cases.place(1, &[0], &stack(384, 8, &[384]));
}

fn many_demands(cases: &mut Cases) {
    let up: Vec<usize> = (0..200).collect();
    let down: Vec<usize> = (0..200).rev().collect();
    let widths: Vec<i64> = (0..200).map(|at| 1 + at % 2).collect();
    cases.place(200, &up, &stack(384, 0, &widths));
    cases.place(201, &down, &stack(300, 0, &widths));
    cases.place(199, &down, &stack(300, 0, &widths));
    cases.place(200, &up, &stack(299, 0, &widths));
    cases.place(200, &up[..199], &stack(300, 0, &widths));
    cases.place(200, &[&up[..], &[200]].concat(), &stack(300, 0, &widths));
    cases.place(200, &vec![0; 500], &stack(300, 0, &widths));
}

fn two_faults(cases: &mut Cases) {
    let tight = worked(3, 0);
    cases.place(2, &[0, 1], &tight);
    cases.place(2, &[0, 1, 1], &tight);
    cases.place(3, &[0, 1, 1], &tight);
    cases.place(2, &[0, 1, 2], &tight);
    cases.place(0, &[2, 1, 0], &tight);
    cases.place(1, &[0, 9], &worked(384, 0));
    cases.place(3, &[0, 0, 9, 9], &worked(384, 0));
}
