//! One demand placed beside numbers that stand. It knows no request: only who is met, and where each begins and ends.

use crate::rules::Rules;
use crate::slips::Slip;

/// Numbers from here on do not exist, whatever the count says.
pub const NUMBERS_HELD: usize = 200;

/// `meets` is 0 for a number that is not met.
#[derive(Clone, Debug, PartialEq)]
pub struct Standing {
    pub meets: u8,
    pub start: i64,
    pub end: i64,
}

/// `numbers` holds those that exist: as many as `count` says, 200 at most.
#[derive(Clone, Debug, PartialEq)]
pub struct One {
    pub count: usize,
    pub slots: i64,
    pub guard: i64,
    pub width: i64,
    pub numbers: Vec<Standing>,
}

/// Where the demand goes, and the number in its way.
#[derive(Clone, Debug, PartialEq)]
pub enum Spot {
    At(i64, Option<usize>),
    Nowhere(Option<usize>),
}

impl One {
    pub fn new(slots: i64, guard: i64, width: i64, numbers: Vec<Standing>) -> One {
        One { count: numbers.len(), slots, guard, width, numbers }
    }
}

/// The lowest start at which nobody stands in the way, if the demand ends within the slots there.
pub fn place_one(one: &One, rules: &Rules) -> Spot {
    let mut start = 0;
    while lowest_in_the_way(one, start, rules).is_some() {
        start += 1;
    }
    if fits(one, start, rules) {
        Spot::At(start, blocker_at(one, start, rules))
    } else {
        Spot::Nowhere(blocker_of_all(one, rules))
    }
}

fn fits(one: &One, start: i64, rules: &Rules) -> bool {
    let end = start + one.width;
    match rules.slip {
        Slip::OneTopWraps => end % 65536 <= one.slots,
        Slip::OneTopUnused => end < one.slots,
        _ => end <= one.slots,
    }
}

/// The lowest number in the way one lower; none at 0.
fn blocker_at(one: &One, start: i64, rules: &Rules) -> Option<usize> {
    match rules.slip {
        _ if start == 0 => None,
        Slip::OneBlockerAtStart => lowest_in_the_way(one, start, rules),
        _ => named(one, start - 1, rules),
    }
}

/// The lowest number in the way at the highest start there is; none where there is no start at all.
fn blocker_of_all(one: &One, rules: &Rules) -> Option<usize> {
    let highest = one.slots - one.width;
    match rules.slip {
        Slip::OneTooWideNamed => named(one, highest.max(0), rules),
        _ if highest < 0 => None,
        Slip::OneUnnamedAtZero if highest == 0 => None,
        Slip::OneNowhereAbove => named(one, highest + 1, rules),
        Slip::OneNowhereAtZero => named(one, 0, rules),
        _ => named(one, highest, rules),
    }
}

fn named(one: &One, start: i64, rules: &Rules) -> Option<usize> {
    if rules.slips(Slip::OneHighestNamed) {
        return (0..one.numbers.len()).rev().find(|&number| in_the_way(one, number, start, rules));
    }
    lowest_in_the_way(one, start, rules)
}

fn lowest_in_the_way(one: &One, start: i64, rules: &Rules) -> Option<usize> {
    let exist = match rules.slip {
        Slip::OneLongCountEmpty if one.count > NUMBERS_HELD => 0,
        Slip::OneLastUnread => one.numbers.len().min(NUMBERS_HELD - 1),
        _ => one.numbers.len(),
    };
    (0..exist).find(|&number| in_the_way(one, number, start, rules))
}

/// A block that ends no higher than it starts holds nothing.
fn in_the_way(one: &One, number: usize, start: i64, rules: &Rules) -> bool {
    let standing = &one.numbers[number];
    let holds = standing.start < standing.end || rules.slips(Slip::OneEmptyCounts);
    is_met(standing, rules) && holds && start < over(one, standing, rules) && standing.start < reach(one, start, rules)
}

fn is_met(standing: &Standing, rules: &Rules) -> bool {
    match rules.slip {
        Slip::OneUnmetCounts => true,
        Slip::OneMetByOneOnly => standing.meets == 1,
        Slip::OneMetByLowBit => standing.meets % 2 == 1,
        _ => standing.meets != 0,
    }
}

/// Where a number is over, its guard too.
fn over(one: &One, standing: &Standing, rules: &Rules) -> i64 {
    match rules.slip {
        Slip::OneGuardAboveOnly => standing.end,
        Slip::OneOverWraps => (standing.end + one.guard) % 65536,
        _ => standing.end + one.guard,
    }
}

/// Where the demand would be over, its guard too.
fn reach(one: &One, start: i64, rules: &Rules) -> i64 {
    let width = if rules.slips(Slip::OneWidthZeroIsOne) { one.width.max(1) } else { one.width };
    match rules.slip {
        Slip::OneGuardBelowOnly => start + width,
        Slip::OneReachWraps => (start + width + one.guard) % 65536,
        _ => start + width + one.guard,
    }
}
