//! What was in the way: the blocker of each placed demand, and of one that finds no start.

use crate::lent::write_numbers;
use crate::pairs::{clash, share};
use crate::request::Request;
use crate::rules::Rules;
use crate::slips::Slip;

/// In a lent buffer: no blocker.
pub const NONE: u16 = 65535;

/// Of the demands placed before, the one of lowest listing position that clashes with a demand at a start.
fn named(
    request: &Request,
    before: &[usize],
    starts: &[i64],
    (position, start): (usize, i64),
    rules: &Rules,
) -> Option<usize> {
    let in_the_way = |&other: &usize| match rules.slip {
        Slip::BlockerWithoutGuard => overlap(request, (position, start), (other, starts[other]), rules),
        _ => clash(request, (position, start), (other, starts[other]), rules),
    };
    let clashing: Vec<usize> = before.iter().copied().filter(in_the_way).collect();
    let blocker = match rules.slip {
        Slip::BlockerPlacedFirst => clashing.first().copied(),
        Slip::BlockerPlacedLast => clashing.last().copied(),
        Slip::BlockerHighest => clashing.iter().copied().max(),
        _ => clashing.iter().copied().min(),
    };
    blocker.map(|blocker| match rules.slip {
        Slip::BlockerAsTurn => before.iter().position(|&placed| placed == blocker).unwrap_or(0),
        Slip::BlockerAsIdent => request.demands.get(blocker).map_or(0, |demand| demand.ident as usize),
        _ => blocker,
    })
}

/// What a slip asks instead: slots held twice, whatever the guard.
fn overlap(request: &Request, (one, start): (usize, i64), (other, other_start): (usize, i64), rules: &Rules) -> bool {
    let (end, other_end) = (start + request.width(one, rules), other_start + request.width(other, rules));
    share(request, one, other) && start < other_end && other_start < end
}

/// For each listing position the blocker at the start one lower, of the demands placed before; none at start 0.
pub fn blockers(request: &Request, order: &[usize], starts: &[i64], rules: &Rules) -> Vec<Option<usize>> {
    let mut all = vec![None; starts.len()];
    for (turn, &position) in order.iter().enumerate() {
        let before = match rules.slip {
            Slip::BlockerOfPlan => others(order, position),
            _ => order[..turn].to_vec(),
        };
        let start = if rules.slips(Slip::BlockerAtStart) { starts[position] } else { starts[position] - 1 };
        if starts[position] > 0 {
            all[position] = named(request, &before, starts, (position, start), rules);
        }
    }
    all
}

fn others(order: &[usize], position: usize) -> Vec<usize> {
    order.iter().copied().filter(|&other| other != position).collect()
}

/// The blockers of a plan that the search shows: those of first fit in its order.
pub fn blockers_shown(request: &Request, order: &[usize], starts: &[i64], rules: &Rules) -> Vec<Option<usize>> {
    let listing: Vec<usize> = (0..starts.len()).collect();
    match rules.slip {
        Slip::FoundBlockersByListing => blockers(request, &listing, starts, rules),
        Slip::FoundBlockersOfPlan => {
            let mut slipped = rules.clone();
            slipped.slip = Slip::BlockerOfPlan;
            blockers(request, order, starts, &slipped)
        }
        _ => blockers(request, order, starts, rules),
    }
}

/// The blocker of a demand that finds no start beside those placed so far: at the highest start there is, S - w.
pub fn blocker_of_stuck(
    request: &Request,
    placed: &[usize],
    starts: &[i64],
    position: usize,
    rules: &Rules,
) -> Option<usize> {
    let highest = request.band.slots - request.width(position, rules);
    if highest == 0 && rules.slips(Slip::StuckUnnamedAtZero) {
        return None;
    }
    let start = match rules.slip {
        Slip::StuckBlockerAbove => highest + 1,
        Slip::StuckBlockerBelow => highest - 1,
        Slip::StuckBlockerAtZero => 0,
        _ => highest,
    };
    named(request, placed, starts, (position, start), rules)
}

/// Writes them by listing position.
pub fn write_blockers(out: &mut [u16], all: &[Option<usize>], order: &[usize], rules: &Rules) {
    let entry = |position: usize| match all[position] {
        Some(blocker) => blocker as i64,
        None => none_in(out, position, rules) as i64,
    };
    let entries: Vec<i64> = match rules.slip {
        Slip::BlockersInPlacingOrder => order.iter().map(|&position| entry(position)).collect(),
        _ => (0..all.len()).map(entry).collect(),
    };
    write_numbers(out, &entries, rules);
}

fn none_in(out: &[u16], position: usize, rules: &Rules) -> u16 {
    match rules.slip {
        Slip::NoBlockerIsZero => 0,
        Slip::NoBlockerIsItself => position as u16,
        Slip::NoBlockerUnwritten => out[position],
        _ => NONE,
    }
}
