//! The limits, the check orders and the table of rates as data, and one slip. The right rules have no slip; a wrong
//! variant changes one limit, one check order, one row of the table, or has one slip.

use crate::slips::Slip;
use std::borrow::Cow;

/// In a check list: the request given in memory is tested.
pub const REQUEST: u8 = 0;
/// In a check list: the fields of the file are taken one by one.
pub const FIELDS: u8 = 100;
/// In a check list: the file ended without a band or a link.
pub const EARLY_END: u8 = 101;
/// In a check list: 30 for a certificate of the wrong shape.
pub const SHAPE: u8 = 102;
/// In a check list: 30 for a weight above a.
pub const WEIGHTS: u8 = 103;
/// In a check list: 30 for two demands or three that weigh too much together.
pub const SETS: u8 = 104;

#[derive(Clone)]
pub struct Limits {
    pub n0_least: i64,
    pub n0_most: i64,
    pub slots_least: i64,
    pub slots_most: i64,
    pub guard_most: i64,
    pub links_most: usize,
    pub demands_most: usize,
    pub hops_least: usize,
    pub hops_most: usize,
    pub width_least: i64,
    pub search_most: usize,
    pub groups_least: usize,
    pub groups_most: usize,
    pub weighed_least: i64,
    pub weighed_most: i64,
    pub request_bytes: usize,
    pub plan_bytes: usize,
}

/// Each list holds refusal numbers in the order in which they are tested.
#[derive(Clone)]
pub struct Checks {
    pub request_file: Vec<u8>,
    pub band_field: Vec<u8>,
    pub link_field: Vec<u8>,
    pub demand_field: Vec<u8>,
    pub other_field: Vec<u8>,
    pub memory: Vec<u8>,
    pub memory_demand: Vec<u8>,
    pub request_writer: Vec<u8>,
    pub first_fit: Vec<u8>,
    pub search: Vec<u8>,
    pub groups: Vec<u8>,
    pub certify: Vec<u8>,
    pub starts: Vec<u8>,
    pub plan_file: Vec<u8>,
    pub plan_row: Vec<u8>,
    pub plan_writer: Vec<u8>,
    pub frequency: Vec<u8>,
    pub block: Vec<u8>,
}

#[derive(Clone)]
pub struct Rules {
    pub limits: Limits,
    pub checks: Checks,
    /// Bit rates, rising, each with the width that it gives.
    pub rates: Vec<(i64, i64)>,
    pub slip: Slip,
}

impl Rules {
    pub fn right() -> Rules {
        Rules { limits: right_limits(), checks: right_checks(), rates: RATES.to_vec(), slip: Slip::None }
    }

    pub fn slips(&self, slip: Slip) -> bool {
        self.slip == slip
    }

    /// The same rules, but with another slip where this one is theirs: for a slip that shows in some calls only.
    pub fn instead(&self, slip: Slip, other: Slip) -> Cow<'_, Rules> {
        if self.slips(slip) {
            return Cow::Owned(Rules { slip: other, ..self.clone() });
        }
        Cow::Borrowed(self)
    }
}

/// The bit rates that may be asked for, and their widths.
pub const RATES: [(i64, i64); 5] = [(10, 1), (40, 1), (100, 2), (400, 8), (1000, 20)];

fn right_limits() -> Limits {
    Limits {
        n0_least: -400,
        n0_most: 400,
        slots_least: 1,
        slots_most: 384,
        guard_most: 8,
        links_most: 64,
        demands_most: 200,
        hops_least: 1,
        hops_most: 32,
        width_least: 1,
        search_most: 20,
        groups_least: 1,
        groups_most: 8,
        weighed_least: 1,
        weighed_most: 2,
        request_bytes: 8128,
        plan_bytes: 1400,
    }
}

fn right_checks() -> Checks {
    Checks {
        request_file: vec![20, FIELDS, EARLY_END],
        band_field: vec![1, 2, 3, 4],
        link_field: vec![1, 2, 3, 5],
        demand_field: vec![1, 2, 3, 6, 8, 21, 9, 7],
        other_field: vec![1, 2],
        memory: vec![4, 2, 5, 6],
        memory_demand: vec![6, 8, 21, 9, 3, 7],
        request_writer: vec![REQUEST, 10],
        first_fit: vec![REQUEST, 12, 10, 13],
        search: vec![REQUEST, 11, 10],
        groups: vec![REQUEST, 10, 24],
        certify: vec![REQUEST, 16, 17, 18, SHAPE, WEIGHTS, SETS],
        starts: vec![REQUEST, 16, 17, 18],
        plan_file: vec![REQUEST, 20, FIELDS, 16, 18, 10],
        plan_row: vec![1, 2, 3, 14, 15, 17],
        plan_writer: vec![REQUEST, 16, 17, 18, 10],
        frequency: vec![4, 9, 17],
        block: vec![4, 19],
    }
}
