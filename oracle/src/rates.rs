//! What a demand asks for, and the width that follows from it.

use crate::request::{Demand, Request};
use crate::rules::Rules;
use crate::slips::Slip;

/// So many slots, or a bit rate in Gbit/s. The rate itself is kept: two rates may give the same width.
#[derive(Clone, Copy, Debug, PartialEq)]
pub enum Asked {
    Width(i64),
    Rate(i64),
}

/// The tag of a demand by its width, in a file and in a frame.
pub const BY_WIDTH: u8 = 3;
/// The tag of a demand by its bit rate.
pub const BY_RATE: u8 = 5;

impl Asked {
    /// What a tag and the number behind the ident ask for; `None` for a tag that is no demand's.
    pub fn from(tag: u8, number: i64) -> Option<Asked> {
        match tag {
            BY_WIDTH => Some(Asked::Width(number)),
            BY_RATE => Some(Asked::Rate(number)),
            _ => None,
        }
    }

    pub fn tag(self) -> u8 {
        match self {
            Asked::Width(_) => BY_WIDTH,
            Asked::Rate(_) => BY_RATE,
        }
    }

    pub fn number(self) -> i64 {
        match self {
            Asked::Width(number) | Asked::Rate(number) => number,
        }
    }

    pub fn is_rate(self) -> bool {
        self.tag() == BY_RATE
    }
}

/// The width that follows from what is asked for; `None` for a rate that the table does not have.
pub fn width_of(asked: Asked, rules: &Rules) -> Option<i64> {
    let Asked::Rate(rate) = asked else { return Some(asked.number()) };
    match rules.slip {
        Slip::RateAsWidth => Some(rate),
        Slip::RateLowByte => listed(rate % 256, rules),
        Slip::RateRoundedUp => rules.rates.iter().find(|row| row.0 >= rate).map(|row| row.1),
        Slip::RateRoundedDown => rules.rates.iter().rfind(|row| row.0 <= rate).map(|row| row.1),
        Slip::RateZeroByWidth if rate == 0 => Some(0),
        Slip::UnknownRateIsNine => listed(rate, rules).or(Some(0)),
        _ => listed(rate, rules),
    }
}

fn listed(rate: i64, rules: &Rules) -> Option<i64> {
    rules.rates.iter().find(|row| row.0 == rate).map(|row| row.1)
}

/// The same request with every rate's width in its place, for the laws: the table is said once more here. `None` where a
/// rate has no width, or where there is no rate.
pub fn by_width(request: &Request) -> Option<Request> {
    let mut same = request.clone();
    for demand in &mut same.demands {
        demand.asked = Asked::Width(stated_width(demand)?);
    }
    Some(same).filter(|same| same != request)
}

fn stated_width(demand: &Demand) -> Option<i64> {
    Some(match demand.asked {
        Asked::Width(width) => width,
        Asked::Rate(10 | 40) => 1,
        Asked::Rate(100) => 2,
        Asked::Rate(400) => 8,
        Asked::Rate(1000) => 20,
        Asked::Rate(_) => return None,
    })
}
