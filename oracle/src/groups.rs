//! Whole groups: the listing cut into groups, first fit on every order of the groups, and of all those that fit the first
//! with the lowest end.

use crate::blockers::{blockers, write_blockers};
use crate::lent::{test_room, write_numbers};
use crate::orders::orders;
use crate::placing::{first_fit, fitted, largest_end, place_below};
use crate::request::{refuse, Refusal, Request};
use crate::rules::{Rules, REQUEST};
use crate::slips::Slip;
use crate::sound::test_request;

/// The end, and the order of the groups that gave it.
#[derive(Clone, Debug, PartialEq)]
pub struct Grouped {
    pub end: i64,
    pub groups: Vec<usize>,
}

/// One order of the groups that fits: the demands in their turns, and their starts by listing position.
#[derive(Clone)]
struct Fit {
    groups: Vec<usize>,
    turns: Vec<usize>,
    starts: Vec<i64>,
    end: i64,
}

/// `None` where every order of the groups is refused; nothing is written then.
pub fn group_orders(
    request: &Request,
    count: usize,
    starts: &mut [u16],
    blocking: &mut [u16],
    rules: &Rules,
) -> Result<Option<Grouped>, Refusal> {
    let count = count_read(count, rules);
    let rooms = [starts.len(), blocking.len()];
    let (rooms, late) = rooms.split_at(if rules.slips(Slip::GroupBlockersRoomLast) { 1 } else { 2 });
    for &check in &rules.checks.groups {
        match check {
            REQUEST => test_request(request, rules)?,
            10 => test_rooms(request, count, rooms, rules)?,
            _ => test_count(request, count, rules)?,
        }
    }
    test_room(late, request.demand_count, rules)?;
    let cut = cut(request.demand_count, count_taken(request, count, rules), rules);
    let fits = fits(request, &cut, rules);
    let Some(best) = best_of(&fits, rules) else { return without_plan(request, starts, blocking, rules) };
    write_numbers(starts, &shown_starts(best, rules), rules);
    write_blockers(blocking, &shown_blockers(request, best, &fits, rules), &best.turns, rules);
    Ok(Some(Grouped { end: shown_end(request, best, &fits, rules), groups: shown_groups(best, &cut, rules) }))
}

/// All of the count is read.
fn count_read(count: usize, rules: &Rules) -> usize {
    match rules.slip {
        Slip::GroupCountLowByte => count % 256,
        Slip::GroupCountLowBytes => count % 65536,
        _ => count,
    }
}

/// 24: a count of groups outside 1 to 8 or above K.
fn test_count(request: &Request, count: usize, rules: &Rules) -> Result<(), Refusal> {
    let least = rules.limits.groups_least;
    let most = if rules.slips(Slip::ManyGroupsAreEight) { usize::MAX } else { rules.limits.groups_most };
    let demands = match rules.slip {
        Slip::MoreGroupsThanDemands | Slip::GroupsCutToDemands => usize::MAX,
        _ => request.demand_count,
    };
    let none_of_none = rules.slips(Slip::NoGroupOfNone) && count == 0 && demands == 0;
    if (count < least || count > most || count > demands) && !none_of_none {
        return refuse(24, count_place(request, count, rules));
    }
    Ok(())
}

fn count_place(request: &Request, count: usize, rules: &Rules) -> usize {
    match rules.slip {
        Slip::GroupPlaceLimit => rules.limits.groups_most,
        Slip::GroupPlaceDemands => request.demand_count,
        Slip::GroupPlaceZero => 0,
        _ => count,
    }
}

/// 10 is tested whether there will be something to write or not.
fn test_rooms(request: &Request, count: usize, rooms: &[usize], rules: &Rules) -> Result<(), Refusal> {
    if rules.slips(Slip::GroupRoomForPlanOnly) && test_count(request, count, rules).is_ok() {
        let cut = cut(request.demand_count, count, rules);
        if fits(request, &cut, rules).is_empty() {
            return Ok(());
        }
    }
    test_room(rooms, request.demand_count, rules)
}

/// What a slip makes of a count that is to be refused.
fn count_taken(request: &Request, count: usize, rules: &Rules) -> usize {
    match rules.slip {
        Slip::GroupsCutToDemands => count.min(request.demand_count),
        Slip::ManyGroupsAreEight => count.min(8),
        _ => count,
    }
}

/// The listing positions of each group: consecutive, and the first K mod M groups one longer.
pub fn cut(demands: usize, count: usize, rules: &Rules) -> Vec<Vec<usize>> {
    if rules.slips(Slip::GroupsByRemainder) {
        return (0..count).map(|group| (group..demands).step_by(count).collect()).collect();
    }
    let mut next = 0;
    let mut groups = Vec::new();
    for group in 0..count {
        let length = length_of(group, demands, count, rules).min(demands - next);
        groups.push(in_turn(next..next + length, rules));
        next += length;
    }
    groups
}

fn length_of(group: usize, demands: usize, count: usize, rules: &Rules) -> usize {
    let (short, longer) = (demands / count, demands % count);
    let rest = |takes: bool| if takes { short + longer } else { short };
    match rules.slip {
        Slip::LastGroupsLonger => short + (group >= count - longer) as usize,
        Slip::FirstGroupTakesRest => rest(group == 0),
        Slip::LastGroupTakesRest => rest(group == count - 1),
        Slip::GroupsAllLong => demands.div_ceil(count),
        _ => short + (group < longer) as usize,
    }
}

/// Inside a group demands go by listing.
fn in_turn(positions: std::ops::Range<usize>, rules: &Rules) -> Vec<usize> {
    if rules.slips(Slip::GroupsReversedInside) {
        return positions.rev().collect();
    }
    positions.collect()
}

/// The orders of the groups that are tried: all, in listing order.
fn tried(count: usize, rules: &Rules) -> Vec<Vec<usize>> {
    let mut all = orders(count);
    match rules.slip {
        Slip::LastGroupSlowest => all.sort_by_key(|order| order.iter().rev().copied().collect::<Vec<_>>()),
        Slip::GroupsTurnedOnly => all.retain(|order| order.windows(2).all(|pair| pair[1] == (pair[0] + 1) % count)),
        Slip::GroupsSwappedOnly => all.retain(|order| moved(order) <= 2),
        _ => {}
    }
    all
}

fn moved(order: &[usize]) -> usize {
    order.iter().enumerate().filter(|&(turn, &group)| turn != group).count()
}

/// First fit on every order of the groups: those that fit, in the sequence in which they are tried.
fn fits(request: &Request, cut: &[Vec<usize>], rules: &Rules) -> Vec<Fit> {
    let mut fits = Vec::new();
    for groups in tried(cut.len(), rules) {
        let turns: Vec<usize> = groups.iter().flat_map(|&group| cut[group].clone()).collect();
        if let Some(starts) = starts_in(request, &turns, rules) {
            let end = largest_end(request, &starts, rules);
            fits.push(Fit { groups, turns, starts, end });
        }
    }
    fits
}

/// Where one demand finds no start within the band the order is refused.
fn starts_in(request: &Request, turns: &[usize], rules: &Rules) -> Option<Vec<i64>> {
    if rules.slips(Slip::GroupsBeyondBand) {
        return Some(place_below(request, turns, None, rules).starts.into_iter().flatten().collect());
    }
    fitted(request, turns, rules)
}

/// The first with the lowest end.
fn best_of<'a>(fits: &'a [Fit], rules: &Rules) -> Option<&'a Fit> {
    let lowest = fits.iter().map(|fit| fit.end).min()?;
    let ends_there = |fit: &&Fit| fit.end == lowest;
    match rules.slip {
        Slip::LastOfEqualGroups => fits.iter().rfind(ends_there),
        Slip::FirstGroupsThatFit => fits.first(),
        _ => fits.iter().find(ends_there),
    }
}

/// What a slip does where every order is refused.
fn without_plan(
    request: &Request,
    starts: &mut [u16],
    blocking: &mut [u16],
    rules: &Rules,
) -> Result<Option<Grouped>, Refusal> {
    let listing: Vec<usize> = (0..request.demand_count).collect();
    match rules.slip {
        Slip::GroupsWriteWithoutPlan => {
            starts.fill(0);
            blocking.fill(0);
        }
        Slip::GroupsWriteListing => {
            let found = place_below(request, &listing, None, rules).starts;
            write_numbers(starts, &found.into_iter().flatten().collect::<Vec<_>>(), rules);
        }
        Slip::GroupsRefusedAsListed => {
            first_fit(request, &listing, starts, blocking, rules)?;
        }
        _ => {}
    }
    Ok(None)
}

/// The starts by listing position.
fn shown_starts(best: &Fit, rules: &Rules) -> Vec<i64> {
    if rules.slips(Slip::GroupStartsInPlacingOrder) {
        return best.turns.iter().map(|&position| best.starts[position]).collect();
    }
    best.starts.clone()
}

/// The blockers of first fit along the order that is told.
fn shown_blockers(request: &Request, best: &Fit, fits: &[Fit], rules: &Rules) -> Vec<Option<usize>> {
    let listing: Vec<usize> = (0..best.starts.len()).collect();
    match rules.slip {
        Slip::GroupBlockersOfPlan => {
            let slipped = Rules { slip: Slip::BlockerOfPlan, ..rules.clone() };
            blockers(request, &best.turns, &best.starts, &slipped)
        }
        Slip::GroupBlockersByListing => blockers(request, &listing, &best.starts, rules),
        Slip::GroupBlockersOfLast => {
            let last = &fits[fits.len() - 1];
            blockers(request, &last.turns, &last.starts, rules)
        }
        _ => blockers(request, &best.turns, &best.starts, rules),
    }
}

fn shown_end(request: &Request, best: &Fit, fits: &[Fit], rules: &Rules) -> i64 {
    let end = |&position: &usize| best.starts[position] + request.width(position, rules);
    match rules.slip {
        Slip::GroupEndOfFirst => fits[0].end,
        Slip::GroupEndOfLastPlaced => best.turns.last().map_or(0, end),
        _ => best.end,
    }
}

/// The numbers of the groups, in the sequence of placing.
fn shown_groups(best: &Fit, cut: &[Vec<usize>], rules: &Rules) -> Vec<usize> {
    let groups = &best.groups;
    match rules.slip {
        Slip::GroupsAsDemands => groups.iter().map(|&group| cut[group].first().copied().unwrap_or(0)).collect(),
        Slip::GroupsAsTurns => {
            (0..groups.len()).map(|group| groups.iter().position(|&other| other == group).unwrap_or(0)).collect()
        }
        Slip::GroupsFromOne => groups.iter().map(|&group| group + 1).collect(),
        _ => groups.clone(),
    }
}
