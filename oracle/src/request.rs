//! A request as it stands in memory, sound or not, and what a refusal carries.

use crate::rates::{width_of, Asked};
use crate::rules::Rules;

#[derive(Clone, Debug, PartialEq)]
pub struct Band {
    pub n0: i64,
    pub slots: i64,
    pub guard: i64,
}

/// `hops` is the stated route length. `route` holds the link numbers that are really there: 32 at most in a frame.
#[derive(Clone, Debug, PartialEq)]
pub struct Demand {
    pub ident: i64,
    pub asked: Asked,
    pub hops: usize,
    pub route: Vec<usize>,
}

/// The counts are stated apart from the lists, since a count may exceed what its array holds.
#[derive(Clone, Debug, PartialEq)]
pub struct Request {
    pub band: Band,
    pub link_count: usize,
    pub links: Vec<(u8, u8)>,
    pub demand_count: usize,
    pub demands: Vec<Demand>,
}

/// The blocker is 13's alone.
#[derive(Clone, Copy, Debug, PartialEq)]
pub struct Refusal {
    pub number: u8,
    pub place: usize,
    pub blocker: Option<usize>,
}

pub fn refuse<T>(number: u8, place: usize) -> Result<T, Refusal> {
    Err(Refusal { number, place, blocker: None })
}

impl Band {
    pub fn new(n0: i64, slots: i64, guard: i64) -> Band {
        Band { n0, slots, guard }
    }
}

impl Demand {
    /// A demand by its width.
    pub fn new(ident: i64, width: i64, route: &[usize]) -> Demand {
        Demand::asking(ident, Asked::Width(width), route)
    }

    pub fn by_rate(ident: i64, rate: i64, route: &[usize]) -> Demand {
        Demand::asking(ident, Asked::Rate(rate), route)
    }

    pub fn asking(ident: i64, asked: Asked, route: &[usize]) -> Demand {
        Demand { ident, asked, hops: route.len(), route: route.to_vec() }
    }

    /// The width that follows; 0 for a rate that has none.
    pub fn width(&self, rules: &Rules) -> i64 {
        width_of(self.asked, rules).unwrap_or(0)
    }
}

impl Request {
    pub fn new(band: Band, links: Vec<(u8, u8)>, demands: Vec<Demand>) -> Request {
        Request { band, link_count: links.len(), links, demand_count: demands.len(), demands }
    }

    /// A demand's width; 0 where no demand stands.
    pub fn width(&self, position: usize, rules: &Rules) -> i64 {
        self.demands.get(position).map_or(0, |demand| demand.width(rules))
    }
}
