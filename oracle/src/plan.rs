//! Plans: the check of starts in memory, and what all plan calls share.

use crate::fields::{put_field, put_two};
use crate::lent::{test_room, write};
use crate::paint::{links_of, Paint};
use crate::placing::largest_end;
use crate::rates::Asked;
use crate::request::{refuse, Refusal, Request};
use crate::rules::{Rules, REQUEST};
use crate::slips::Slip;
use crate::sound::test_request;

pub const ROW: u8 = 4;

/// The check of starts in memory. An allowed plan is answered with its end.
pub fn check_starts(request: &Request, starts: &[i64], rules: &Rules) -> Result<i64, Refusal> {
    for &check in &rules.checks.starts {
        test_starts(check, request, starts, rules)?;
    }
    Ok(plan_end(request, starts, rules))
}

/// One test of the request or of the starts beside it.
pub fn test_starts(check: u8, request: &Request, starts: &[i64], rules: &Rules) -> Result<(), Refusal> {
    match check {
        REQUEST => test_request(request, rules),
        16 => test_given(request, starts, rules),
        17 => test_ends(request, starts, rules),
        _ => test_clashes(request, &known(request, starts), &listing(request), rules),
    }
}

/// Writes the plan's rows in listing order and says how many bytes they took.
pub fn write_plan(request: &Request, starts: &[i64], out: &mut [u8], rules: &Rules) -> Result<usize, Refusal> {
    for &check in &rules.checks.plan_writer {
        match check {
            10 => test_room(&[out.len()], 7 * request.demand_count, rules)?,
            _ => test_starts(check, request, starts, rules)?,
        }
    }
    let bytes = plan_bytes(request, starts, rules);
    write(out, &bytes, 0, rules);
    Ok(bytes.len())
}

pub fn plan_bytes(request: &Request, starts: &[i64], rules: &Rules) -> Vec<u8> {
    let mut positions = listing(request);
    if rules.slips(Slip::RowsWrittenByStart) {
        positions.sort_by_key(|&position| starts[position]);
    }
    let mut out = Vec::new();
    for position in positions {
        if let Some(demand) = request.demands.get(position) {
            put_field(&mut out, ROW, &row_body(demand.ident, starts[position]));
        }
    }
    out
}

pub fn row_body(ident: i64, start: i64) -> Vec<u8> {
    let mut body = Vec::new();
    put_two(&mut body, ident);
    put_two(&mut body, start);
    body
}

pub fn listing(request: &Request) -> Vec<usize> {
    (0..request.demand_count).collect()
}

/// The starts of the demands, by listing position. Starts after K are not read.
fn known(request: &Request, starts: &[i64]) -> Vec<Option<i64>> {
    (0..request.demand_count).map(|position| starts.get(position).copied()).collect()
}

/// 16 where some demand has no start; told at how many there are.
fn test_given(request: &Request, starts: &[i64], rules: &Rules) -> Result<(), Refusal> {
    let count = request.demand_count;
    let extra = rules.slips(Slip::ExtraStartsRefused) && starts.len() > count;
    if starts.len() < count || extra {
        return refuse(16, if rules.slips(Slip::FewStartsPlaceCount) { count } else { starts.len() });
    }
    Ok(())
}

/// 17 at the lowest listing position.
fn test_ends(request: &Request, starts: &[i64], rules: &Rules) -> Result<(), Refusal> {
    let read = if rules.slips(Slip::ExtraStartsRead) { starts.len() } else { request.demand_count };
    for (position, &start) in starts.iter().enumerate().take(read) {
        if ends_above(request, position, start, rules) {
            return refuse(17, position);
        }
        if rules.slips(Slip::ClashTestedPerPosition) {
            let so_far = known(request, &starts[..=position]);
            test_clashes(request, &so_far, &listing(request), rules)?;
        }
    }
    Ok(())
}

/// start + width never wraps.
pub fn ends_above(request: &Request, position: usize, start: i64, rules: &Rules) -> bool {
    let end = start + held(request, position, rules);
    match rules.slip {
        Slip::EndWraps => end % 65536 > request.band.slots,
        Slip::EndAtTopRefused => end >= request.band.slots,
        Slip::StartComparedAlone => start >= request.band.slots,
        _ => end > request.band.slots,
    }
}

/// What is added to a start for 17: the width, also of a demand by rate.
fn held(request: &Request, position: usize, rules: &Rules) -> i64 {
    match request.demands.get(position).map(|demand| demand.asked) {
        Some(Asked::Rate(rate)) if rules.slips(Slip::EndByRate) => rate,
        _ => request.width(position, rules),
    }
}

/// 18 at the first demand, by listing position, that clashes with one before it. A demand without a start is passed over.
pub fn test_clashes(
    request: &Request,
    starts: &[Option<i64>],
    sequence: &[usize],
    rules: &Rules,
) -> Result<(), Refusal> {
    let mut paint = Paint::to_check(request, rules);
    for &position in sequence {
        let Some(start) = starts[position] else { continue };
        let links = links_of(request, position, rules);
        let width = request.width(position, rules);
        if let Some(owner) = paint.clash(&links, start, width) {
            return refuse(18, if rules.slips(Slip::ClashPlaceLower) { owner } else { position });
        }
        if rules.slips(Slip::ClashWithNeighbourOnly) {
            paint = Paint::to_check(request, rules);
        }
        paint.paint(&links, start, width, position);
    }
    Ok(())
}

/// The largest end, 0 without demands.
pub fn plan_end(request: &Request, starts: &[i64], rules: &Rules) -> i64 {
    let read = &starts[..request.demand_count.min(starts.len())];
    if rules.slips(Slip::PlanEndOfLast) {
        return read.last().map_or(0, |start| start + request.width(read.len() - 1, rules));
    }
    largest_end(request, read, rules)
}
