//! What the rules promise about blockers and about one demand placed alone, held on the answers.

use crate::blockers::NONE;
use crate::one::{place_one, One, Spot, Standing};
use crate::paint::{links_of, Paint};
use crate::pairs::share;
use crate::request::{Refusal, Request};
use crate::rules::Rules;

/// What first fit gave by listing position.
pub struct Given<'a> {
    pub order: &'a [usize],
    pub starts: &'a [i64],
    pub blockers: &'a [u16],
}

/// A start of 0 has no blocker. Any other has one: of the demands placed before that share a link and end exactly a guard
/// below it, the one of lowest listing position. Painted slots say the same, and so does placing one demand alone.
pub fn blockers_hold(request: &Request, given: &Given, rules: &Rules) -> bool {
    given.order.iter().enumerate().all(|(turn, &position)| {
        let before = &given.order[..turn];
        let start = given.starts[position];
        let named = Some(given.blockers[position]).filter(|&entry| entry != NONE).map(usize::from);
        named == ends_a_guard_below(request, before, given.starts, position, rules)
            && named.is_some() == (start > 0)
            && named.is_none_or(|named| painted(request, before, given.starts, (position, start - 1), named, rules))
            && place_one(&alone(request, before, given.starts, position, rules), rules) == Spot::At(start, named)
    })
}

fn ends_a_guard_below(
    request: &Request,
    before: &[usize],
    starts: &[i64],
    position: usize,
    rules: &Rules,
) -> Option<usize> {
    let over = |other: usize| starts[other] + request.width(other, rules) + request.band.guard;
    let below = |other: &&usize| share(request, **other, position) && over(**other) == starts[position];
    before.iter().filter(below).copied().min()
}

/// Whether the one named was placed before and clashes at the start, and no other of lower listing position does.
fn painted(
    request: &Request,
    before: &[usize],
    starts: &[i64],
    (position, start): (usize, i64),
    named: usize,
    rules: &Rules,
) -> bool {
    let clashes = |shown: &dyn Fn(usize) -> bool| {
        let mut paint = Paint::to_place(request, rules);
        for &other in before.iter().filter(|&&other| shown(other)) {
            paint.paint(&links_of(request, other, rules), starts[other], request.width(other, rules), other);
        }
        paint.clash(&links_of(request, position, rules), start, request.width(position, rules)).is_some()
    };
    clashes(&|other| other == named) && !clashes(&|other| other < named)
}

/// The demand, and by their listing positions those placed before; one that shares no link with it is not met.
fn alone(request: &Request, before: &[usize], starts: &[i64], position: usize, rules: &Rules) -> One {
    let standing = |other: usize| Standing {
        meets: (before.contains(&other) && share(request, other, position)) as u8,
        start: starts[other],
        end: starts[other] + request.width(other, rules),
    };
    let numbers = (0..request.demand_count).map(standing).collect();
    One::new(request.band.slots, request.band.guard, request.width(position, rules), numbers)
}

/// 13 comes at the first demand that, placed alone, goes nowhere beside those before it, and names whom that names: the one
/// of lowest listing position at S - w.
pub fn stuck_holds(request: &Request, order: &[usize], refusal: &Refusal, rules: &Rules) -> bool {
    let mut starts = vec![0; request.demand_count];
    for (turn, &position) in order.iter().enumerate() {
        match place_one(&alone(request, &order[..turn], &starts, position, rules), rules) {
            Spot::At(start, _) => starts[position] = start,
            Spot::Nowhere(named) => {
                let highest = request.band.slots - request.width(position, rules);
                let at_the_top = |named| painted(request, &order[..turn], &starts, (position, highest), named, rules);
                return refusal.place == position && refusal.blocker == named && named.is_some_and(at_the_top);
            }
        }
    }
    false
}

/// A width of 0 without a guard has no slots to paint.
pub fn one_holds(one: &One, rules: &Rules) -> Option<bool> {
    if one.width == 0 && one.guard == 0 {
        return None;
    }
    Some(match place_one(one, rules) {
        Spot::At(start, named) => {
            let over = |number: usize| one.numbers[number].end + one.guard;
            clear(one, start)
                && start + one.width <= one.slots
                && named.is_some() == (start > 0)
                && named.is_none_or(|named| over(named) == start && lowest(one, named, start - 1))
        }
        Spot::Nowhere(named) => {
            let highest = one.slots - one.width;
            (0..=highest).all(|start| !clear(one, start))
                && named.is_some() == (highest >= 0)
                && named.is_none_or(|named| lowest(one, named, highest))
        }
    })
}

/// Whether no slot that the demand or its guards take there is held.
fn clear(one: &One, start: i64) -> bool {
    (0..one.numbers.len()).all(|number| shared_slots(one, number, start) <= 0)
}

fn lowest(one: &One, named: usize, start: i64) -> bool {
    (0..=named).all(|number| (shared_slots(one, number, start) > 0) == (number == named))
}

/// How many of the slots that the demand takes there, guards included, a number holds.
fn shared_slots(one: &One, number: usize, start: i64) -> i64 {
    let standing = &one.numbers[number];
    if standing.meets == 0 {
        return 0;
    }
    standing.end.min(start + one.width + one.guard) - standing.start.max(start - one.guard)
}
