//! Plan files read.

use crate::fields::{field_at, two, whole_fields, Field};
use crate::lent::{test_room, write_numbers};
use crate::plan::{ends_above, listing, plan_end, test_clashes, ROW};
use crate::request::{refuse, Refusal, Request};
use crate::rules::{Rules, FIELDS, REQUEST};
use crate::slips::Slip;
use crate::sound::test_request;

/// Reads a plan, writes the starts by listing position and gives the plan's end.
pub fn read_plan(request: &Request, file: &[u8], out: &mut [u16], rules: &Rules) -> Result<i64, Refusal> {
    let (starts, rows) = known_rows(request, file, rules);
    for &check in &rules.checks.plan_file {
        match check {
            REQUEST => test_request(request, rules)?,
            20 => test_length(request, file, rules)?,
            FIELDS => test_rows(request, file, rules)?,
            16 => test_missing(&starts, file, rules)?,
            18 => test_clashes(request, &starts, &clash_sequence(request, &rows, rules), rules)?,
            _ => test_room(&[out.len()], request.demand_count, rules)?,
        }
    }
    let starts: Vec<i64> = starts.into_iter().flatten().collect();
    write_numbers(out, &starts, rules);
    Ok(plan_end(request, &starts, rules))
}

/// A plan of more than 200 rows is too long, whatever K is.
fn test_length(request: &Request, file: &[u8], rules: &Rules) -> Result<(), Refusal> {
    let limit = match rules.slip {
        Slip::PlanLimitByCount => 7 * request.demand_count,
        _ => rules.limits.plan_bytes,
    };
    if file.len() > limit {
        return refuse(20, if rules.slips(Slip::LongPlanPlaceLength) { file.len() } else { limit });
    }
    Ok(())
}

/// The demand a row names, by its ident.
fn position_of(request: &Request, row: &Field, index: usize, rules: &Rules) -> Option<usize> {
    if rules.slips(Slip::RowsByPosition) {
        return Some(index).filter(|&index| index < request.demand_count);
    }
    request.demands.iter().position(|demand| demand.ident == two(row.body, 0))
}

/// The starts that the file's sound rows give, the first of each demand, and the demands in the sequence of the rows.
fn known_rows(request: &Request, file: &[u8], rules: &Rules) -> (Vec<Option<i64>>, Vec<usize>) {
    let mut starts = vec![None; request.demand_count.max(request.demands.len())];
    let mut rows = Vec::new();
    for (index, row) in whole_fields(file).iter().enumerate() {
        if row.tag != ROW || row.length != 4 {
            continue;
        }
        if let Some(position) = position_of(request, row, index, rules).filter(|position| !rows.contains(position)) {
            starts[position] = Some(two(row.body, 2));
            rows.push(position);
        }
    }
    (starts, rows)
}

fn test_rows(request: &Request, file: &[u8], rules: &Rules) -> Result<(), Refusal> {
    let mut offset = 0;
    let mut index = 0;
    let mut seen = Vec::new();
    while offset < file.len() {
        if rules.slips(Slip::StrayBytesIgnored) && file.len() - offset < 3 && offset > 0 {
            return Ok(());
        }
        let row = field_at(file, offset);
        let position = position_of(request, &row, index, rules);
        test_row(request, &row, position, &seen, rules)
            .map_err(|refusal| Refusal { place: row_place(refusal.place, index, rules), ..refusal })?;
        seen.extend(position.map(|position| (position, two(row.body, 2))));
        offset += 3 + row.length;
        index += 1;
    }
    Ok(())
}

fn row_place(offset: usize, index: usize, rules: &Rules) -> usize {
    if rules.slips(Slip::RowIndexAsPlace) {
        index
    } else {
        offset
    }
}

fn test_row(
    request: &Request,
    row: &Field,
    position: Option<usize>,
    seen: &[(usize, i64)],
    rules: &Rules,
) -> Result<(), Refusal> {
    for &number in &rules.checks.plan_row {
        if row_fault(number, request, row, position, seen, rules) {
            return refuse(number, row.offset);
        }
    }
    Ok(())
}

fn row_fault(
    number: u8,
    request: &Request,
    row: &Field,
    position: Option<usize>,
    seen: &[(usize, i64)],
    rules: &Rules,
) -> bool {
    match number {
        1 => !row.whole,
        2 => row.tag != ROW,
        3 => row.length != 4,
        14 => position.is_none(),
        15 => position.is_some_and(|position| seen_before(position, two(row.body, 2), seen, rules)),
        _ => position.is_some_and(|position| ends_above(request, position, two(row.body, 2), rules)),
    }
}

fn seen_before(position: usize, start: i64, seen: &[(usize, i64)], rules: &Rules) -> bool {
    if rules.slips(Slip::SameRowAllowed) {
        return seen.iter().any(|&(other, its_start)| other == position && its_start != start);
    }
    seen.iter().any(|&(other, _)| other == position)
}

/// 16 at the first missing listing position.
fn test_missing(starts: &[Option<i64>], file: &[u8], rules: &Rules) -> Result<(), Refusal> {
    if let Some(position) = starts.iter().position(|start| start.is_none()) {
        let given = starts.iter().flatten().count();
        return refuse(16, missing_place(position, given, file, rules));
    }
    Ok(())
}

fn missing_place(position: usize, given: usize, file: &[u8], rules: &Rules) -> usize {
    match rules.slip {
        Slip::MissingPlaceFileLength => file.len(),
        Slip::MissingPlaceGiven => given,
        _ => position,
    }
}

/// Listing order, whatever the sequence of the rows.
fn clash_sequence(request: &Request, rows: &[usize], rules: &Rules) -> Vec<usize> {
    if rules.slips(Slip::ClashPlaceByRows) {
        return rows.to_vec();
    }
    listing(request)
}
