//! The search: the tree of partial orders walked depth first, written out plainly.

use crate::blockers::{blockers_shown, write_blockers, NONE};
use crate::bound::bound;
use crate::lent::{test_room, write_numbers};
use crate::paint::{links_of, Paint};
use crate::placing::lowest_start;
use crate::request::{refuse, Refusal, Request};
use crate::rules::{Rules, REQUEST};
use crate::slips::Slip;
use crate::sound::test_request;

#[derive(Clone, Copy, Debug, PartialEq)]
pub enum Outcome {
    Finished,
    NoFit,
    Unfinished,
    UnfinishedEmpty,
}

#[derive(Clone, Debug, PartialEq)]
pub struct Found {
    pub outcome: Outcome,
    pub end: i64,
    pub bound: i64,
    pub steps: u64,
    pub reached: u128,
    pub ruled: u128,
}

struct Plan {
    starts: Vec<i64>,
    order: Vec<usize>,
    end: i64,
}

enum Turn {
    GoOn,
    Finished,
    LimitUsed,
}

struct Walk<'a> {
    request: &'a Request,
    rules: &'a Rules,
    limit: u64,
    bound: i64,
    mark: i64,
    paint: Paint,
    order: Vec<usize>,
    starts: Vec<i64>,
    best: Option<Plan>,
    steps: u64,
    reached: u128,
    ruled: u128,
}

pub fn search(
    request: &Request,
    limit: u64,
    starts: &mut [u16],
    order: &mut [u16],
    blocking: &mut [u16],
    rules: &Rules,
) -> Result<Found, Refusal> {
    for &check in &rules.checks.search {
        match check {
            REQUEST => test_request(request, rules)?,
            11 => test_count(request, rules)?,
            _ => test_rooms(request, limit, [starts.len(), order.len(), blocking.len()], rules)?,
        }
    }
    let (found, plan) = find(request, limit, rules);
    if let Some(plan) = plan {
        write_numbers(starts, &shown_starts(&plan, rules), rules);
        write_numbers(order, &shown_order(&plan, rules), rules);
        write_blockers(blocking, &blockers_shown(request, &plan.order, &plan.starts, rules), &plan.order, rules);
    } else if rules.slips(Slip::WritesWithoutPlan) {
        starts.fill(0);
        order.fill(0);
        blocking.fill(0);
    } else if rules.slips(Slip::BlockersWrittenWithoutPlan) {
        blocking.fill(NONE);
    }
    Ok(found)
}

fn test_count(request: &Request, rules: &Rules) -> Result<(), Refusal> {
    if request.demand_count > rules.limits.search_most {
        let most = rules.limits.search_most;
        return refuse(11, if rules.slips(Slip::CountPlaceLimit) { most } else { request.demand_count });
    }
    Ok(())
}

/// 10 is tested before the walk begins, even if that will find nothing to write. All buffers need K entries, so that the
/// answer does not tell which of them is short.
fn test_rooms(request: &Request, limit: u64, rooms: [usize; 3], rules: &Rules) -> Result<(), Refusal> {
    if rules.slips(Slip::RoomTestedForPlanOnly) && find(request, limit, rules).1.is_none() {
        return Ok(());
    }
    test_room(&rooms, request.demand_count, rules)
}

/// The starts by listing position.
fn shown_starts(plan: &Plan, rules: &Rules) -> Vec<i64> {
    if rules.slips(Slip::FoundStartsInPlacingOrder) {
        return plan.order.iter().map(|&position| plan.starts[position]).collect();
    }
    plan.starts.clone()
}

/// The order that gave them: listing positions in the sequence of placing.
fn shown_order(plan: &Plan, rules: &Rules) -> Vec<i64> {
    if rules.slips(Slip::OrderAsTurns) {
        let turn = |position| plan.order.iter().position(|&placed| placed == position).unwrap_or(0) as i64;
        return (0..plan.order.len()).map(turn).collect();
    }
    plan.order.iter().map(|&position| position as i64).collect()
}

pub fn factorial(number: usize) -> u128 {
    (1..=number as u128).product()
}

/// The answer, and the best plan where there is one.
fn find(request: &Request, limit: u64, rules: &Rules) -> (Found, Option<Plan>) {
    let bound = bound(request, rules);
    let count = request.demand_count;
    if bound > request.band.slots && !(rules.slips(Slip::LimitBeforeBound) && limit == 0) {
        return (nothing_fits(bound, count, rules), None);
    }
    if count == 0 {
        return empty(bound, limit, rules);
    }
    let mut walk = begin(request, limit, bound, rules);
    let turn = walk.below();
    let used_up = rules.slips(Slip::LastStepUnfinished) && walk.steps == walk.limit;
    let whole = !matches!(turn, Turn::LimitUsed) && !used_up;
    answer(walk, whole)
}

/// 0 steps, 0 reached, K! ruled out.
fn nothing_fits(bound: i64, count: usize, rules: &Rules) -> Found {
    let ruled = if rules.slips(Slip::NoFitRuledNone) { 0 } else { factorial(count) };
    Found { outcome: Outcome::NoFit, end: 0, bound, steps: 0, reached: 0, ruled }
}

/// Without demands there is nothing to walk: finished at 0, no step, the empty order reached.
fn empty(bound: i64, limit: u64, rules: &Rules) -> (Found, Option<Plan>) {
    let unfinished = rules.slips(Slip::EmptyNeedsStep) && limit == 0;
    let outcome = if unfinished { Outcome::UnfinishedEmpty } else { Outcome::Finished };
    let reached = if rules.slips(Slip::EmptyNotReached) { 0 } else { 1 };
    let found = Found { outcome, end: 0, bound, steps: 0, reached, ruled: 0 };
    (found, Some(Plan { starts: vec![], order: vec![], end: 0 }))
}

fn begin<'a>(request: &'a Request, limit: u64, bound: i64, rules: &'a Rules) -> Walk<'a> {
    let mark = match rules.slip {
        Slip::MarkAtSlots => request.band.slots,
        Slip::MarkTwoAbove => request.band.slots + 2,
        _ => request.band.slots + 1,
    };
    Walk {
        request,
        rules,
        limit,
        bound,
        mark,
        paint: Paint::to_place(request, rules),
        order: vec![],
        starts: vec![0; request.demand_count],
        best: None,
        steps: 0,
        reached: 0,
        ruled: 0,
    }
}

impl Walk<'_> {
    /// Tries each demand not yet placed, by listing position, below the ones placed.
    fn below(&mut self) -> Turn {
        for position in self.tried() {
            if self.step_limit_used() {
                return Turn::LimitUsed;
            }
            if self.refused_by_band(position) {
                self.ruled += factorial(self.request.demand_count - self.order.len() - 1);
                continue;
            }
            self.place(position);
            let turn = self.judge();
            self.take_back(position);
            if !matches!(turn, Turn::GoOn) {
                return turn;
            }
        }
        Turn::GoOn
    }

    fn tried(&self) -> Vec<usize> {
        let mut left: Vec<usize> =
            (0..self.request.demand_count).filter(|position| !self.order.contains(position)).collect();
        match self.rules.slip {
            Slip::LastTriedFirst => left.reverse(),
            Slip::WidestTriedFirst => left.sort_by_key(|&position| -self.request.width(position, self.rules)),
            _ => {}
        }
        left
    }

    fn step_limit_used(&self) -> bool {
        let limit = if self.rules.slips(Slip::OneStepMore) { self.limit + 1 } else { self.limit };
        self.steps >= limit
    }

    /// Here placing has no upper limit: never.
    fn refused_by_band(&self, position: usize) -> bool {
        let top = Some(self.request.band.slots);
        self.rules.slips(Slip::WalkKeepsBand)
            && lowest_start(&self.paint, self.request, position, top, self.rules).is_none()
    }

    /// One step: the demand at its lowest start.
    fn place(&mut self, position: usize) {
        let start = lowest_start(&self.paint, self.request, position, None, self.rules).unwrap_or(0);
        let links = links_of(self.request, position, self.rules);
        self.paint.paint(&links, start, self.request.width(position, self.rules), position);
        self.starts[position] = start;
        self.order.push(position);
        self.steps += 1;
    }

    fn take_back(&mut self, position: usize) {
        let links = links_of(self.request, position, self.rules);
        self.paint.wipe(&links, self.starts[position], self.request.width(position, self.rules));
        self.order.pop();
    }

    fn largest_end(&self) -> i64 {
        let end = |&position: &usize| self.starts[position] + self.request.width(position, self.rules);
        if self.rules.slips(Slip::EndOfLastStep) {
            return self.order.last().map_or(0, end);
        }
        self.order.iter().map(end).max().unwrap_or(0)
    }

    /// After a step: an order reached, a branch left, or deeper.
    fn judge(&mut self) -> Turn {
        let end = self.largest_end();
        if self.order.len() == self.request.demand_count {
            return self.reach(end);
        }
        if self.leaves(end) {
            self.rule_out();
            return Turn::GoOn;
        }
        self.below()
    }

    fn leaves(&self, end: i64) -> bool {
        match self.rules.slip {
            Slip::LeavesAtBound => end >= self.mark || end == self.bound,
            Slip::LeavesAboveMarkOnly => end > self.mark,
            Slip::NeverLeaves => false,
            _ => end >= self.mark,
        }
    }

    /// (K - d)! orders are ruled out.
    fn rule_out(&mut self) {
        let placed = self.order.len();
        let left = self.request.demand_count - placed;
        self.ruled += match self.rules.slip {
            Slip::RuledOne => 1,
            Slip::RuledPlaced => factorial(placed),
            Slip::RuledOneMore => factorial(left + 1),
            _ => factorial(left),
        };
        if self.rules.slips(Slip::LeftStepUncounted) {
            self.steps -= 1;
        }
    }

    /// Every complete order counts as reached.
    fn reach(&mut self, end: i64) -> Turn {
        let better =
            end < self.mark || (self.rules.slips(Slip::EqualEndReplaces) && self.best.is_some() && end == self.mark);
        if better || !self.rules.slips(Slip::ReachedWhenBetterOnly) {
            self.reached += 1;
        } else {
            self.ruled += 1;
        }
        if !better {
            return Turn::GoOn;
        }
        self.best = Some(Plan { starts: self.starts.clone(), order: self.order.clone(), end });
        if !self.rules.slips(Slip::MarkStays) {
            self.mark = end;
        }
        self.after_better(end)
    }

    fn after_better(&self, end: i64) -> Turn {
        let stop = match self.rules.slip {
            Slip::NoStopAtBound => false,
            Slip::StopsAtFirstPlan => true,
            _ => end == self.bound,
        };
        if stop {
            Turn::Finished
        } else {
            Turn::GoOn
        }
    }
}

fn answer(walk: Walk, whole: bool) -> (Found, Option<Plan>) {
    let rules = walk.rules;
    let dropped = rules.slips(Slip::UnfinishedDropsPlan) && !whole;
    let best = if dropped { None } else { walk.best };
    let finished = whole || (rules.slips(Slip::AnyPlanFinished) && best.is_some());
    let outcome = match (finished, best.is_some()) {
        (true, true) => Outcome::Finished,
        (true, false) => Outcome::NoFit,
        (false, true) => Outcome::Unfinished,
        (false, false) => Outcome::UnfinishedEmpty,
    };
    let no_plan_end = if rules.slips(Slip::NoPlanEndIsMark) { walk.mark } else { 0 };
    let end = best.as_ref().map_or(no_plan_end, |plan| plan.end);
    let found = Found { outcome, end, bound: walk.bound, steps: walk.steps, reached: walk.reached, ruled: walk.ruled };
    (found, best)
}
