//! Stored cases: blocks and frequencies.

use super::cases::Cases;
use super::files::bands_at_the_edges;
use crate::request::Band;

pub fn grid_cases(cases: &mut Cases) {
    for band in bands_at_the_edges() {
        cases.frequency(&band, 0, 1);
        cases.block(&band, band.n0 + 1, 1);
    }
    blocks(cases);
    numbers_back(cases);
    two_faults(cases);
}

fn blocks(cases: &mut Cases) {
    for n0 in [-400, -284, 0, 400] {
        for (start, width) in [(0, 2), (141, 2), (383, 1), (0, 384), (1, 383), (200, 7)] {
            cases.frequency(&Band::new(n0, 384, 0), start, width);
        }
    }
    let band = Band::new(-284, 384, 8);
    for (start, width) in [
        (0, 0),
        (0, 385),
        (0, 65535),
        (1, 384),
        (383, 2),
        (384, 1),
        (384, 0),
        (65535, 1),
        (65535, 2),
        (65535, 384),
        (65500, 100),
        (382, 2),
        (65535, 65535),
    ] {
        cases.frequency(&band, start, width);
    }
    for (start, width) in [(0, 1), (1, 1), (0, 2)] {
        cases.frequency(&Band::new(5, 1, 0), start, width);
    }
}

fn numbers_back(cases: &mut Cases) {
    for (n0, slots) in [(-284, 384), (400, 10), (-400, 1), (0, 384)] {
        let band = Band::new(n0, slots, 0);
        for m in [0, 1, 2, 3, slots - 1, slots, slots + 1, 65535] {
            let lowest = n0 + m;
            let highest = n0 + 2 * slots - m;
            for n in
                [lowest - 2, lowest - 1, lowest, lowest + 1, lowest + 2, highest - 1, highest, highest + 1, highest + 2]
            {
                cases.block(&band, n, m);
            }
        }
    }
    let band = Band::new(-284, 384, 0);
    for n in [i32::MIN, i32::MIN + 1, -65536, 65536 - 282, -65536 - 282, 0, 1, i32::MAX - 1, i32::MAX] {
        cases.block(&band, n as i64, 2);
        cases.block(&band, n as i64, 1);
    }
}

fn two_faults(cases: &mut Cases) {
    for band in [Band::new(401, 384, 0), Band::new(0, 0, 0), Band::new(0, 385, 0), Band::new(0, 4, 9)] {
        cases.frequency(&band, 0, 0);
        cases.frequency(&band, 384, 400);
        cases.frequency(&band, 65535, 1);
        cases.frequency(&band, 4, 1);
        cases.block(&band, -1, 1);
        cases.block(&band, 0, 0);
    }
    let band = Band::new(0, 4, 0);
    for (start, width) in [(5, 0), (4, 5), (1, 5), (65535, 0), (4, 0)] {
        cases.frequency(&band, start, width);
    }
}
