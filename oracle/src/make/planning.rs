//! Stored cases: plans checked, read and written.

use super::cases::Cases;
use super::shapes::*;
use crate::fields::put_field;
use crate::plan::row_body;
use crate::request::{Band, Demand, Request};

pub fn planning_cases(cases: &mut Cases) {
    starts_in_memory(cases);
    written_plans(cases);
    rows_read(cases);
    rows_damaged(cases);
    two_faults_in_a_row(cases);
    faults_after_the_rows(cases);
    long_plans(cases);
}

/// Two routes that share one link, with a demand that shares none.
fn pair(guard: i64) -> Request {
    let demands = vec![Demand::new(5, 2, &[0, 1]), Demand::new(6, 3, &[1, 2]), Demand::new(7, 4, &[3])];
    Request::new(Band::new(0, 20, guard), line(4), demands)
}

fn starts_in_memory(cases: &mut Cases) {
    let request = worked(384, 0);
    for starts in [
        &[][..],
        &[0],
        &[0, 3],
        &[0, 3, 0],
        &[0, 2, 3],
        &[0, 2, 2],
        &[0, 1, 2],
        &[2, 1, 2],
        &[1, 0, 1],
        &[9, 3, 0],
        &[382, 381, 0],
        &[383, 0, 1],
        &[0, 384, 1],
        &[0, 3, 382],
        &[65535, 3, 0],
        &[65534, 65535, 65533],
        &[0, 3, 65535],
        &[0, 3, 0, 0],
        &[0, 3, 0, 65535, 65535],
        &[0, 0, 384],
        &[0, 0, 0],
        &[0, 65535],
    ] {
        cases.check(starts, &request);
        cases.write_plan(22, starts, &request);
    }
    guards_checked(cases);
    cases.check(&[], &bare(Band::new(0, 1, 0)));
    cases.check(&[65535], &bare(Band::new(0, 1, 0)));
    cases.check(&vec![0; 500], &bare(Band::new(0, 1, 0)));
    cases.check(&(0..200).collect::<Vec<_>>(), &stack(200, 0, &[1; 200]));
    cases.check(&(0..199).collect::<Vec<_>>(), &stack(200, 0, &[1; 200]));
    cases.check(&(0..200).rev().collect::<Vec<_>>(), &stack(199, 0, &[1; 200]));
}

fn guards_checked(cases: &mut Cases) {
    for guard in [0, 1, 2, 8] {
        for start in [0, 1, 2, 3, 4, 9, 10, 11, 17] {
            cases.check(&[0, start, 16], &pair(guard));
        }
        for start in [10, 11, 12, 13, 14] {
            cases.check(&[15, start, 0], &pair(guard));
        }
        cases.check(&[18, 0, 5], &pair(guard));
        cases.check(&[12, 0, 17], &pair(guard));
    }
    let parallel = vec![(0, 1), (0, 1)];
    let side_by_side = vec![Demand::new(1, 2, &[0]), Demand::new(2, 2, &[1])];
    cases.check(&[0, 0], &Request::new(Band::new(0, 3, 1), parallel, side_by_side));
}

fn written_plans(cases: &mut Cases) {
    for room in [0, 6, 7, 20, 21, 22, 30] {
        cases.write_plan(room, &[0, 3, 0], &worked(384, 0));
        cases.write_plan(room, &[9, 4, 0, 1], &worked(384, 1));
    }
    cases.write_plan(0, &[], &bare(Band::new(0, 1, 0)));
    cases.write_plan(2, &[5], &bare(Band::new(0, 1, 0)));
    let many = stack(200, 0, &[1; 200]);
    let starts: Vec<i64> = (0..200).rev().collect();
    for room in [1399, 1400, 1401] {
        cases.write_plan(room, &starts, &many);
    }
    for (room, starts) in
        [(20, &[0, 3][..]), (20, &[0, 3, 384]), (20, &[0, 0, 384]), (20, &[0, 0, 0]), (0, &[383, 384])]
    {
        cases.write_plan(room, starts, &worked(384, 0));
    }
}

fn rows(rows: &[(i64, i64)]) -> Vec<u8> {
    let mut out = Vec::new();
    for &(ident, start) in rows {
        put_field(&mut out, 4, &row_body(ident, start));
    }
    out
}

fn rows_read(cases: &mut Cases) {
    let request = worked(384, 0);
    let starts = [(10, 0), (20, 3), (30, 0)];
    for sequence in [[0, 1, 2], [0, 2, 1], [1, 0, 2], [1, 2, 0], [2, 0, 1], [2, 1, 0]] {
        let file = rows(&sequence.map(|at: usize| starts[at]));
        cases.read_plan(4, &file, &request);
        cases.read_plan(2, &file, &request);
    }
    for room in [0, 2, 3, 9] {
        cases.read_plan(room, &rows(&[(30, 1), (10, 5), (20, 4)]), &request);
    }
    cases.read_plan(0, &[], &bare(Band::new(0, 1, 0)));
    cases.read_plan(3, &[], &bare(Band::new(0, 1, 0)));
    cases.read_plan(0, &rows(&[(0, 0)]), &bare(Band::new(0, 1, 0)));
    let edges = vec![Demand::new(65535, 1, &[0]), Demand::new(0, 383, &[0])];
    let edges = Request::new(Band::new(0, 384, 0), line(1), edges);
    for plan in [[(0, 0), (65535, 383)], [(65535, 0), (0, 1)], [(0, 1), (65535, 384)], [(65535, 65535), (0, 0)]] {
        cases.read_plan(2, &rows(&plan), &edges);
    }
}

fn rows_damaged(cases: &mut Cases) {
    let request = worked(384, 0);
    let file = rows(&[(20, 3), (10, 0), (30, 0)]);
    for length in 0..file.len() {
        cases.read_plan(3, &file[..length], &request);
    }
    for at in 0..file.len() {
        for byte in [file[at] ^ 1, file[at] ^ 0x80, 0xFF] {
            let mut damaged = file.clone();
            damaged[at] = byte;
            cases.read_plan(3, &damaged, &request);
        }
    }
    for stray in [&[0xFF][..], &[4, 0], &[4, 0, 4], &[0xFF, 0, 0], &[0xFF, 0, 1], &[3, 0, 0], &[4, 0, 0], &[4, 0, 0, 0]]
    {
        cases.read_plan(3, stray, &request);
        cases.read_plan(3, &[&file[..], stray].concat(), &request);
    }
    for tag in [0, 1, 2, 3, 5] {
        let mut damaged = file.clone();
        damaged[7] = tag;
        cases.read_plan(3, &damaged, &request);
    }
}

/// The last row has two faults; rows before it are good.
fn two_faults_in_a_row(cases: &mut Cases) {
    let request = worked(384, 0);
    let before = rows(&[(20, 3), (10, 0)]);
    for row in [
        &[5, 0, 5, 0, 30, 0, 0][..],
        &[5, 0, 3, 0, 30, 0],
        &[4, 0, 5, 0, 30, 0, 0],
        &[4, 0, 4, 0, 99, 0],
        &[4, 0, 4, 0, 20, 0],
        &[4, 0, 3, 0, 99, 0],
        &[4, 0, 3, 0, 20, 0],
        &[4, 0, 5, 0, 99, 0, 0, 0],
        &[4, 0, 5, 0, 20, 0, 0, 0],
        &[4, 0, 5, 0, 30, 0xFF, 0xFF, 0],
        &[5, 0, 4, 0, 99, 0, 0],
        &[5, 0, 4, 0, 20, 0, 0],
        &[4, 0, 4, 0, 20, 0xFF, 0xFF],
        &[4, 0, 4, 0, 99, 0xFF, 0xFF],
        &[4, 0, 4, 0, 20, 0, 3],
        &[4, 0, 4, 0, 20, 0, 4],
        &[4, 0, 4, 0, 30, 0x01, 0x7E],
        &[4, 0, 4, 0, 30, 0x01, 0x7D],
    ] {
        cases.read_plan(3, &[&before[..], row].concat(), &request);
        cases.read_plan(0, &[&before[..], row].concat(), &request);
        cases.read_plan(3, row, &request);
    }
    for first in [(10, 383), (99, 0), (10, 65535)] {
        let file = rows(&[first, (20, 3), (20, 3)]);
        cases.read_plan(3, &file, &request);
        cases.read_plan(3, &file[..20], &request);
        cases.read_plan(3, &[&file[..7], &[5, 0, 4, 0, 30, 0, 0]].concat(), &request);
    }
}

fn faults_after_the_rows(cases: &mut Cases) {
    let request = worked(384, 0);
    for plan in [
        &[][..],
        &[(30, 0)],
        &[(20, 0)],
        &[(10, 0), (30, 0)],
        &[(30, 0), (20, 3)],
        &[(20, 0), (10, 0)],
        &[(20, 1), (30, 1)],
        &[(20, 0), (30, 9), (10, 1)],
        &[(30, 2), (20, 2), (10, 0)],
        &[(30, 0), (10, 0), (20, 0)],
        &[(30, 0), (20, 0), (10, 0)],
        &[(30, 381), (20, 9), (10, 383)],
        &[(30, 382), (20, 0), (20, 0)],
        &[(20, 0), (30, 382)],
        &[(20, 0), (30, 0), (10, 0), (40, 0)],
    ] {
        cases.read_plan(3, &rows(plan), &request);
        cases.read_plan(2, &rows(plan), &request);
    }
    for guard in [0, 1, 2] {
        for start in [1, 2, 3, 4] {
            cases.read_plan(3, &rows(&[(7, 0), (6, start), (5, 0)]), &pair(guard));
        }
    }
    later_pairs(cases);
}

/// Four demands on one link: the lowest position that clashes with an earlier one, whatever the rows' sequence.
fn later_pairs(cases: &mut Cases) {
    let request = stack(40, 0, &[2, 2, 2, 2]);
    for plan in [
        [(3, 0), (2, 0), (1, 10), (0, 20)],
        [(0, 0), (3, 1), (1, 10), (2, 11)],
        [(3, 0), (1, 1), (0, 8), (2, 8)],
        [(2, 0), (0, 1), (3, 30), (1, 30)],
    ] {
        cases.read_plan(4, &rows(&plan), &request);
        let mut starts = vec![0; 4];
        plan.iter().for_each(|&(ident, start)| starts[ident as usize] = start);
        cases.check(&starts, &request);
    }
}

fn long_plans(cases: &mut Cases) {
    let many = stack(200, 0, &[1; 200]);
    let all: Vec<(i64, i64)> = (0..200).map(|at| (199 - at, at)).collect();
    let file = rows(&all);
    cases.read_plan(200, &file, &many);
    cases.read_plan(199, &file, &many);
    cases.read_plan(200, &file[..1399], &many);
    cases.read_plan(200, &file[..1393], &many);
    cases.read_plan(200, &[&file[..], &[0]].concat(), &many);
    let request = worked(384, 0);
    cases.read_plan(3, &vec![0xFF; 1400], &request);
    cases.read_plan(3, &vec![0xFF; 1401], &request);
    cases.read_plan(3, &vec![0; 1401], &request);
    cases.read_plan(0, &[&file[..], &file[..7]].concat(), &request);
    cases.read_plan(0, &vec![4; 2000], &bare(Band::new(0, 1, 0)));
}
