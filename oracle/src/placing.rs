//! First fit: the lowest start by trying each from 0.

use crate::blockers::{blocker_of_stuck, blockers, write_blockers};
use crate::lent::{test_room, write_numbers};
use crate::paint::{links_of, Paint};
use crate::request::{refuse, Refusal, Request};
use crate::rules::{Rules, REQUEST};
use crate::slips::Slip;
use crate::sound::test_request;

/// The lowest start that clashes with nothing painted and, if there is a top, keeps the end at most there.
pub fn lowest_start(paint: &Paint, request: &Request, position: usize, top: Option<i64>, rules: &Rules) -> Option<i64> {
    let width = request.width(position, rules);
    let links = links_of(request, position, rules);
    let mut start = first_tried(paint, request, &links, rules);
    loop {
        if top.is_some_and(|top| start + width > top) {
            return None;
        }
        if tried(paint, start, rules) && paint.clash(&links, start, width).is_none() {
            return Some(start);
        }
        start += 1;
    }
}

fn first_tried(paint: &Paint, request: &Request, links: &[usize], rules: &Rules) -> i64 {
    match rules.slip {
        Slip::GuardAtBottom => request.band.guard,
        Slip::GapsNotFilled => paint.top(links),
        Slip::FirstStartOne => 1,
        _ => 0,
    }
}

/// Every start is tried.
fn tried(paint: &Paint, start: i64, rules: &Rules) -> bool {
    if rules.slips(Slip::StartsAtEndsOnly) {
        return start == 0 || paint.block_ends_at(start) || start > paint.top_of_all();
    }
    true
}

/// What first fit came to: the starts found so far, and the demand that found none with its index in the order.
pub struct Placed {
    pub starts: Vec<Option<i64>>,
    stuck: Option<(usize, usize)>,
}

fn place_all(request: &Request, order: &[usize], rules: &Rules) -> Placed {
    place_below(request, order, Some(top_of(request, rules)), rules)
}

/// The starts by listing position where the order fits within the band.
pub fn fitted(request: &Request, order: &[usize], rules: &Rules) -> Option<Vec<i64>> {
    let placed = place_all(request, order, rules);
    if placed.stuck.is_some() {
        return None;
    }
    Some(placed.starts.into_iter().flatten().collect())
}

/// First fit with every end at most at the top, if there is one.
pub fn place_below(request: &Request, order: &[usize], top: Option<i64>, rules: &Rules) -> Placed {
    let mut placed = Placed { starts: vec![None; request.demand_count], stuck: None };
    let mut paint = Paint::to_place(request, rules);
    for (index, &position) in order.iter().enumerate().take(request.demand_count) {
        match lowest_start(&paint, request, position, top, rules) {
            Some(start) => {
                paint.paint(&links_of(request, position, rules), start, request.width(position, rules), position);
                placed.starts[position] = Some(start);
            }
            None => {
                placed.stuck = Some((position, index));
                return placed;
            }
        }
    }
    placed
}

fn top_of(request: &Request, rules: &Rules) -> i64 {
    match rules.slip {
        Slip::GuardAtTop => request.band.slots - request.band.guard,
        Slip::LastSlotUnused => request.band.slots - 1,
        _ => request.band.slots,
    }
}

/// Places the demands in the order given, writes starts and blockers by listing position and gives the plan's end.
pub fn first_fit(
    request: &Request,
    order: &[usize],
    starts: &mut [u16],
    blocking: &mut [u16],
    rules: &Rules,
) -> Result<i64, Refusal> {
    let rooms = [starts.len(), blocking.len()];
    let (rooms, late) = rooms.split_at(if rules.slips(Slip::BlockersRoomLast) { 1 } else { 2 });
    for &check in &rules.checks.first_fit {
        match check {
            REQUEST => test_request(request, rules)?,
            12 => test_order(order, request.demand_count, rules)?,
            10 => test_room(rooms, request.demand_count, rules)?,
            _ => test_placed(request, order, starts, blocking, rules)?,
        }
    }
    test_room(late, request.demand_count, rules)?;
    let order = &order[..request.demand_count];
    let found: Vec<i64> = place_all(request, order, rules).starts.into_iter().flatten().collect();
    write_numbers(starts, &shown_starts(&found, order, rules), rules);
    write_blockers(blocking, &blockers(request, order, &found, rules), order, rules);
    Ok(end_of_placed(request, order, &found, rules))
}

/// 13, with who is in the way. Nothing at all is written then.
fn test_placed(
    request: &Request,
    order: &[usize],
    out: &mut [u16],
    blocking: &mut [u16],
    rules: &Rules,
) -> Result<(), Refusal> {
    let placed = place_all(request, order, rules);
    let Some((position, index)) = placed.stuck else { return Ok(()) };
    let starts: Vec<i64> = placed.starts.iter().map(|start| start.unwrap_or(0)).collect();
    if rules.slips(Slip::WritesBeforeStuck) {
        for (entry, start) in out.iter_mut().zip(&placed.starts) {
            *entry = start.map_or(*entry, |start| start as u16);
        }
    }
    if rules.slips(Slip::WritesBlockersBeforeStuck) {
        write_blockers(blocking, &blockers(request, &order[..index], &starts, rules), order, rules);
    }
    let place = if rules.slips(Slip::StuckPlaceIndex) { index } else { position };
    Err(Refusal { number: 13, place, blocker: blocker_of_stuck(request, &order[..index], &starts, position, rules) })
}

/// The starts by listing position.
fn shown_starts(starts: &[i64], order: &[usize], rules: &Rules) -> Vec<i64> {
    if rules.slips(Slip::StartsInPlacingOrder) {
        return order.iter().map(|&position| starts[position]).collect();
    }
    starts.to_vec()
}

fn end_of_placed(request: &Request, order: &[usize], starts: &[i64], rules: &Rules) -> i64 {
    if rules.slips(Slip::EndOfLastPlaced) {
        return order.last().map_or(0, |&last| starts[last] + request.width(last, rules));
    }
    largest_end(request, starts, rules)
}

/// The largest end, 0 without demands.
pub fn largest_end(request: &Request, starts: &[i64], rules: &Rules) -> i64 {
    starts.iter().enumerate().map(|(position, start)| start + request.width(position, rules)).max().unwrap_or(0)
}

/// 12: a wrong length, else the first entry that is no listing position or repeats one.
fn test_order(order: &[usize], count: usize, rules: &Rules) -> Result<(), Refusal> {
    if rules.slips(Slip::OrderEntriesFirst) {
        test_entries(order, count, rules)?;
    }
    if order.len() != count && !(rules.slips(Slip::LongOrderAllowed) && order.len() > count) {
        return refuse(12, if rules.slips(Slip::OrderPlaceCount) { count } else { order.len() });
    }
    test_entries(&order[..count.min(order.len())], count, rules)
}

fn test_entries(order: &[usize], count: usize, rules: &Rules) -> Result<(), Refusal> {
    for (index, &entry) in order.iter().enumerate() {
        let before = order[..index].iter().position(|&other| other == entry);
        if entry >= count || before.is_some() {
            return refuse(12, entry_place(index, entry, before, rules));
        }
    }
    Ok(())
}

fn entry_place(index: usize, entry: usize, before: Option<usize>, rules: &Rules) -> usize {
    match rules.slip {
        Slip::RepeatPlaceEarlier => before.unwrap_or(index),
        Slip::OrderPlaceEntry => entry,
        _ => index,
    }
}
