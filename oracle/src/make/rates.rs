//! Stored cases: demands by bit rate, in files and in memory, alone and among demands by width.

use super::cases::Cases;
use super::files::{followed, joined, Fields};
use super::shapes::*;
use crate::fields::put_field;
use crate::plan::row_body;
use crate::rates::Asked::{self, Rate, Width};
use crate::request::{Band, Demand, Request};
use crate::request_file::request_bytes;
use crate::rules::RATES;

const MOST: u64 = u32::MAX as u64;

pub fn rate_cases(cases: &mut Cases) {
    mixed_tags(cases);
    equal_widths(cases);
    listed_rates(cases);
    unlisted_rates(cases);
    narrow_bands(cases);
    behind_the_links(cases);
    lengths(cases);
    damaged_files(cases);
    faults_in_a_field(cases);
    faults_in_memory(cases);
    faults_in_two_demands(cases);
    idents(cases);
    counts(cases);
    planned(cases);
    searched(cases);
}

/// The worked request's links and routes, with what its demands ask for.
fn asking(slots: i64, guard: i64, asked: [Asked; 3]) -> Request {
    changed(&worked(slots, guard), |request| {
        for (demand, asked) in request.demands.iter_mut().zip(asked) {
            demand.asked = asked;
        }
    })
}

/// Every sequence of the two tags in three demands.
fn mixed_tags(cases: &mut Cases) {
    let (widths, rates) = ([2, 1, 3], [100, 40, 400]);
    for chosen in 0..8 {
        let asked = [0, 1, 2].map(|at| if chosen >> at & 1 == 1 { Rate(rates[at]) } else { Width(widths[at]) });
        let request = asking(20, 1, asked);
        let file = request_bytes(&request);
        cases.read(&file);
        cases.every_call(&request);
        cases.write(file.len(), &request);
        cases.write(file.len() - 1, &request);
        for order in [[0, 2, 1], [2, 1, 0]] {
            cases.place(3, &order, &request);
        }
        for limit in [0, 4, MOST] {
            cases.search(limit, [3; 3], &request);
        }
    }
}

/// Different requests of the same widths, each with a file of its own.
fn equal_widths(cases: &mut Cases) {
    let asked = [Width(1), Rate(10), Rate(40), Width(2), Rate(100), Width(8), Rate(400), Width(20), Rate(1000)];
    for asked in asked {
        let request = Request::new(Band::new(0, 20, 8), line(1), vec![Demand::asking(7, asked, &[0])]);
        let file = request_bytes(&request);
        cases.read(&file);
        cases.write(file.len() + 1, &request);
        cases.search(1, [1; 3], &request);
    }
}

/// One rate and a narrow demand beside it.
fn beside(slots: i64, rate: i64) -> Request {
    let demands = vec![Demand::by_rate(500, rate, &[0]), Demand::new(3, 1, &[0])];
    Request::new(Band::new(-3, slots, 0), line(1), demands)
}

/// Each rate in bands in which it does not fit, just fits alone, just fits beside the other, and has room.
fn listed_rates(cases: &mut Cases) {
    for (rate, width) in RATES {
        for slots in [width - 1, width, width + 1, 384] {
            let request = beside(slots.max(1), rate);
            cases.read(&request_bytes(&request));
            cases.every_call(&request);
            cases.place(2, &[1, 0], &request);
            cases.check(&[1, 0], &request);
            cases.search(MOST, [2; 3], &request);
        }
    }
}

/// Rates that are not in the table, close to one that is and not, where each other thing is right.
fn unlisted_rates(cases: &mut Cases) {
    for rate in UNLISTED {
        for slots in [1, 20, 384] {
            let request = asking(slots, 0, [Width(1), Rate(rate), Width(1)]);
            cases.read(&request_bytes(&request));
            cases.sound(&request);
        }
    }
    for rate in [0, 11, 65535] {
        for at in 0..3 {
            let request = changed(&worked(384, 0), |request| request.demands[at].asked = Rate(rate));
            cases.read(&request_bytes(&request));
            cases.every_call(&request);
        }
        let request = asking(9, 1, [Rate(10), Rate(rate), Rate(100)]);
        cases.every_call_faulty(&request);
        cases.read_plan(9, &vec![4; 1401], &request);
    }
}

fn narrow_bands(cases: &mut Cases) {
    for slots in [1, 2, 7, 8, 9, 19, 20, 21, 39, 40, 99, 100] {
        for (rate, _) in RATES {
            let request = Request::new(Band::new(0, slots, 8), line(1), vec![Demand::by_rate(0, rate, &[0])]);
            cases.read(&request_bytes(&request));
            cases.sound(&request);
        }
    }
    for request in [asking(19, 0, [Width(1), Rate(10), Rate(1000)]), asking(7, 0, [Rate(400), Width(1), Rate(100)])] {
        cases.every_call(&request);
        cases.every_call_faulty(&request);
    }
}

/// A band, two links, three demands of both kinds.
fn mixed_fields() -> Fields {
    vec![
        (1, vec![0xFE, 0xE4, 0, 30, 1]),
        (2, vec![0, 1]),
        (2, vec![1, 2]),
        (5, vec![0, 10, 0, 100, 0]),
        (3, vec![0, 20, 0, 1, 0, 1]),
        (5, vec![0, 30, 0x01, 0x90, 1]),
    ]
}

/// Fields in a sequence, by their indices in the mixed fields.
fn in_sequence(at: &[usize]) -> Vec<u8> {
    let fields = mixed_fields();
    joined(&at.iter().map(|&index| fields[index].clone()).collect::<Vec<_>>())
}

/// Where a 05 may stand and what may stand behind it.
fn behind_the_links(cases: &mut Cases) {
    for sequence in [
        &[0, 1, 2, 3][..],
        &[0, 1, 3],
        &[0, 3],
        &[0, 3, 1],
        &[3],
        &[3, 0, 1],
        &[0, 1, 3, 2],
        &[0, 1, 3, 2, 5],
        &[0, 1, 3, 2, 4],
        &[0, 1, 3, 4, 2],
        &[0, 1, 2, 4, 3, 2],
        &[0, 1, 3, 0],
        &[0, 0, 3],
        &[0, 1, 2, 3, 4, 5],
        &[0, 1, 2, 4, 3, 5],
        &[0, 1, 2, 3, 5, 4],
        &[0, 1, 2, 3, 5],
        &[0, 1, 2, 3, 3],
    ] {
        cases.read(&in_sequence(sequence));
    }
    for tag in [0, 1, 2, 4, 6, 7, 0x83, 0x85, 0xFF] {
        for before in [&[0, 1, 3][..], &[0, 1, 2, 4, 5], &[0, 1]] {
            cases.read(&followed(in_sequence(before), tag, 5, &[0, 77, 0, 10, 0]));
            cases.read(&followed(in_sequence(before), tag, 4, &[0, 10, 0, 0]));
            cases.read(&followed(in_sequence(before), tag, 2, &[4, 5]));
        }
    }
    for unlisted in [&[][..], &[0], &[0, 1]] {
        cases.read(&followed(in_sequence(unlisted), 5, 5, &[0, 77, 0, 11, 0]));
        cases.read(&followed(in_sequence(unlisted), 5, 5, &[0, 77, 0, 10, 9]));
        cases.read(&followed(in_sequence(unlisted), 5, 4, &[0, 77, 0, 11]));
        cases.read(&followed(in_sequence(unlisted), 5, 6, &[0, 77, 0, 11, 0]));
    }
}

/// A 05 is as long as a 03.
fn lengths(cases: &mut Cases) {
    let front = request_bytes(&Request::new(Band::new(0, 20, 0), line(33), vec![]));
    for length in [0, 1, 2, 3, 4, 5, 6, 35, 36, 37, 38, 256] {
        for number in [10, 11] {
            let body: Vec<u8> = [0, 9, 0, number].into_iter().chain((0..=255).cycle()).take(length).collect();
            let mut file = front.clone();
            put_field(&mut file, 5, &body);
            cases.read(&file);
        }
    }
}

fn damaged_files(cases: &mut Cases) {
    let file = joined(&mixed_fields());
    for length in 18..=file.len() {
        cases.read(&file[..length]);
    }
    for at in 18..file.len() {
        for byte in [file[at] ^ 1, file[at] ^ 0x80, 0xFF] {
            let mut damaged = file.clone();
            damaged[at] = byte;
            cases.read(&damaged);
        }
    }
    for at in 0..6 {
        for tag in 0..=7 {
            let mut fields = mixed_fields();
            fields[at].0 = tag;
            cases.read(&joined(&fields));
        }
    }
}

/// Numbers in a 05 or 03 beside which other tests fail or not: the band has five slots.
const NUMBERS: [(u8, i64); 9] = [(5, 10), (5, 0), (5, 11), (5, 5), (5, 65535), (5, 400), (5, 1000), (3, 0), (3, 6)];

/// A last demand in which two of the tests fail, or three.
fn faults_in_a_field(cases: &mut Cases) {
    let before = request_bytes(&asking(5, 0, [Width(2), Rate(10), Rate(100)]));
    for (tag, number) in NUMBERS {
        for ident in [10, 20, 40] {
            for route in [&[0][..], &[9], &[0, 0], &[1, 0]] {
                let body = [&row_body(ident, number)[..], route].concat();
                let length = body.len() as u16;
                cases.read(&followed(before.clone(), tag, length, &body));
            }
            let body = row_body(ident, number);
            cases.read(&followed(before.clone(), tag, 4, &body));
            cases.read(&followed(before.clone(), tag, 5, &body));
            cases.read(&followed(before.clone(), tag, 37, &[&body[..], &[0; 33]].concat()));
        }
    }
}

fn faults_in_memory(cases: &mut Cases) {
    for (tag, number) in NUMBERS {
        let Some(asked) = Asked::from(tag, number) else { continue };
        for ident in [10, 20, 40] {
            for route in [&[0][..], &[9], &[1, 0], &[]] {
                let before = asking(5, 0, [Width(2), Rate(10), Rate(100)]);
                cases.sound(&with_demand(before, Demand::asking(ident, asked, route)));
            }
            let before = asking(5, 0, [Width(2), Rate(10), Rate(100)]);
            let long = with_demand(before, Demand::asking(ident, asked, &[0]));
            cases.sound(&with_hops(long, 3, 33));
        }
    }
}

/// The earlier demand's fault is told, whatever its number.
fn faults_in_two_demands(cases: &mut Cases) {
    let faults = [
        Demand::by_rate(50, 11, &[0]),
        Demand::by_rate(50, 0, &[0]),
        Demand::by_rate(50, 400, &[0]),
        Demand::new(50, 0, &[0]),
        Demand::by_rate(10, 10, &[0]),
        Demand::by_rate(50, 40, &[7]),
        Demand::by_rate(50, 40, &[]),
        Demand::new(50, 1, &[7]),
    ];
    for one in &faults {
        for other in &faults {
            let mut request = with_demand(asking(5, 0, [Rate(100), Width(2), Rate(10)]), one.clone());
            request = with_demand(request, Demand::new(60, 1, &[1]));
            let ident = if other.ident == 50 { 51 } else { other.ident };
            let request = with_demand(request, Demand { ident, ..other.clone() });
            cases.sound(&request);
            cases.read(&request_bytes(&request));
        }
    }
}

/// An ident is used once, whatever the tags.
fn idents(cases: &mut Cases) {
    let kinds = [Width(1), Rate(10)];
    for one in kinds {
        for other in kinds {
            for idents in [[7, 7, 8], [7, 8, 7], [8, 7, 7], [7, 8, 9]] {
                let request = changed(&asking(9, 0, [one, Rate(40), other]), |request| {
                    for (demand, ident) in request.demands.iter_mut().zip(idents) {
                        demand.ident = ident;
                    }
                });
                cases.read(&request_bytes(&request));
                cases.sound(&request);
            }
        }
    }
}

/// So many demands, every so many of them by rate from the first on.
fn many(count: usize, every: usize, asked: Asked) -> Request {
    changed(&stack(384, 0, &vec![1; count]), |request| {
        request.demands.iter_mut().step_by(every).for_each(|demand| demand.asked = asked);
    })
}

/// The 200 run over both tags.
fn counts(cases: &mut Cases) {
    cases.read(&request_bytes(&many(200, 2, Rate(40))));
    let all = request_bytes(&many(200, 1, Rate(10)));
    cases.read(&all);
    for (tag, body) in [
        (3, &[1, 0, 0, 1, 0][..]),
        (5, &[1, 0, 0, 10, 0]),
        (5, &[1, 0, 0, 11, 0]),
        (5, &[0, 9, 0, 11, 0]),
        (5, &[1, 0, 0, 11, 9]),
        (5, &[1, 0, 0, 11]),
    ] {
        cases.read(&followed(all.clone(), tag, body.len() as u16, body));
    }
    let widths = request_bytes(&many(200, 1, Width(1)));
    cases.read(&followed(widths, 5, 5, &[1, 0, 0, 10, 0]));
    cases.read(&request_bytes(&many(201, 3, Rate(10))));
    let mixed = many(200, 2, Rate(10));
    cases.sound(&mixed);
    cases.sound(&with_demand(mixed.clone(), Demand::by_rate(1000, 10, &[0])));
    cases.sound(&changed(&mixed, |request| request.demands[199].asked = Rate(9)));
    cases.bound(&changed(&mixed, |request| request.demands[198].asked = Rate(1000)));
    let order: Vec<usize> = (0..200).rev().collect();
    cases.place(200, &order, &many(200, 3, Rate(100)));
    cases.search(1, [200; 3], &mixed);
    cases.read(&request_bytes(&largest_mixed()));
}

fn rows(rows: &[(i64, i64)]) -> Vec<u8> {
    let mut out = Vec::new();
    for &(ident, start) in rows {
        put_field(&mut out, 4, &row_body(ident, start));
    }
    out
}

/// Plans around the ends that the widths give: 8 and 20 slots on one link each, 1 on both.
fn planned(cases: &mut Cases) {
    let request = asking(30, 1, [Rate(400), Rate(40), Rate(1000)]);
    for starts in [
        &[0, 21, 0][..],
        &[0, 20, 0],
        &[0, 22, 0],
        &[22, 0, 2],
        &[22, 0, 1],
        &[23, 0, 2],
        &[22, 29, 2],
        &[0, 29, 8],
        &[0, 30, 0],
        &[0, 28, 10],
        &[0, 28, 11],
        &[13, 22, 0],
        &[14, 22, 0],
        &[0, 21],
        &[0, 21, 0, 65535],
    ] {
        cases.check(starts, &request);
        cases.write_plan(22, starts, &request);
        let named: Vec<(i64, i64)> = [10, 20, 30].into_iter().zip(starts.iter().copied()).rev().collect();
        cases.read_plan(3, &rows(&named), &request);
    }
    for order in [[0, 1, 2], [0, 2, 1], [1, 0, 2], [1, 2, 0], [2, 0, 1], [2, 1, 0]] {
        for slots in [20, 21, 22, 30] {
            cases.place(3, &order, &changed(&request, |request| request.band.slots = slots));
        }
    }
}

fn searched(cases: &mut Cases) {
    for (slots, guard) in [(384, 0), (30, 1), (22, 1), (21, 1), (20, 0), (28, 8)] {
        for asked in [[Rate(400), Rate(40), Rate(1000)], [Rate(1000), Width(1), Width(8)]] {
            for limit in [0, 3, 4, 5, MOST] {
                cases.search(limit, [3; 3], &asking(slots, guard, asked));
            }
        }
    }
    let around = changed(&round(5, 12, 1), |request| {
        for (demand, rate) in request.demands.iter_mut().zip([100, 10, 40, 100, 10]) {
            demand.asked = Rate(rate);
        }
    });
    for slots in [4, 5, 6, 7, 8, 384] {
        cases.search(MOST, [5; 3], &changed(&around, |request| request.band.slots = slots));
        cases.search(40, [5; 3], &changed(&around, |request| request.band.slots = slots));
    }
}
