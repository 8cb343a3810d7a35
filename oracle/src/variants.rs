//! Wrong variants of the rules, and the first case that tells each from the right ones.

use crate::answers::answer;
use crate::frames::Call;
use crate::rules::{Checks, Limits, Rules, EARLY_END, FIELDS, RATES, REQUEST, SETS, SHAPE, WEIGHTS};
use crate::slips::SLIPS;

pub struct Variant {
    pub name: String,
    pub rules: Rules,
}

/// All variants. Their numbers are their positions, counted from 1.
pub fn all() -> Vec<Variant> {
    let mut variants = slipped();
    variants.extend(reordered());
    variants.extend(moved());
    variants.extend(shifted());
    variants.extend(other_tables());
    variants
}

fn slipped() -> Vec<Variant> {
    let variant = |&(slip, name): &(_, &str)| {
        let mut rules = Rules::right();
        rules.slip = slip;
        Variant { name: name.to_string(), rules }
    };
    SLIPS.iter().map(variant).collect()
}

type List = fn(&mut Checks) -> &mut Vec<u8>;

const LISTS: [(&str, List); 18] = [
    ("request file", |checks| &mut checks.request_file),
    ("band field", |checks| &mut checks.band_field),
    ("link field", |checks| &mut checks.link_field),
    ("demand field", |checks| &mut checks.demand_field),
    ("unknown field", |checks| &mut checks.other_field),
    ("request in memory", |checks| &mut checks.memory),
    ("demand in memory", |checks| &mut checks.memory_demand),
    ("request writer", |checks| &mut checks.request_writer),
    ("first fit", |checks| &mut checks.first_fit),
    ("search", |checks| &mut checks.search),
    ("groups", |checks| &mut checks.groups),
    ("certificate", |checks| &mut checks.certify),
    ("check of starts", |checks| &mut checks.starts),
    ("plan file", |checks| &mut checks.plan_file),
    ("plan row", |checks| &mut checks.plan_row),
    ("plan writer", |checks| &mut checks.plan_writer),
    ("block to frequency", |checks| &mut checks.frequency),
    ("frequency to block", |checks| &mut checks.block),
];

/// Neighbours that no call can have at once: a missing link and a link at fault; a 201st demand in memory, of which
/// nothing is read; a row's ident unknown and already seen; a rate without a width and a width at fault.
const NEVER_AT_ONCE: [(&str, u8, u8); 5] = [
    ("request in memory", 2, 5),
    ("demand in memory", 6, 8),
    ("plan row", 14, 15),
    ("demand field", 21, 9),
    ("demand in memory", 21, 9),
];

/// Every two neighbouring checks swapped.
fn reordered() -> Vec<Variant> {
    let mut variants = Vec::new();
    for (place, list) in LISTS {
        let length = list(&mut Rules::right().checks).len();
        for at in 1..length {
            let mut rules = Rules::right();
            let checks = list(&mut rules.checks);
            let (first, second) = (checks[at - 1], checks[at]);
            checks.swap(at - 1, at);
            if !NEVER_AT_ONCE.contains(&(place, first, second)) {
                variants.push(Variant { name: format!("{place}: {} before {}", told(second), told(first)), rules });
            }
        }
    }
    variants
}

fn told(check: u8) -> String {
    match check {
        REQUEST => "the request's tests".to_string(),
        FIELDS => "the fields".to_string(),
        EARLY_END => "the early end".to_string(),
        SHAPE => "the certificate's shape".to_string(),
        WEIGHTS => "its weights".to_string(),
        SETS => "its pairs and threes".to_string(),
        number => number.to_string(),
    }
}

/// A check moved further than to its neighbour's place, or left out.
fn moved() -> Vec<Variant> {
    let orders: [(&str, List, &[u8]); 21] = [
        ("request in memory: no link after the demands", |checks| &mut checks.memory, &[4, 5, 6, 2]),
        ("request in memory: the demands before the links", |checks| &mut checks.memory, &[4, 6, 2, 5]),
        ("demand in memory: 3 first, as in files", |checks| &mut checks.memory_demand, &[3, 6, 8, 21, 9, 7]),
        ("demand field: 3 after 9, as in memory", |checks| &mut checks.demand_field, &[1, 2, 6, 8, 21, 9, 3, 7]),
        ("demand field: 21 before 1", |checks| &mut checks.demand_field, &[21, 1, 2, 3, 6, 8, 9, 7]),
        ("demand field: 21 before 2", |checks| &mut checks.demand_field, &[1, 21, 2, 3, 6, 8, 9, 7]),
        ("demand field: 21 before 3", |checks| &mut checks.demand_field, &[1, 2, 21, 3, 6, 8, 9, 7]),
        ("demand field: 21 before 6", |checks| &mut checks.demand_field, &[1, 2, 3, 21, 6, 8, 9, 7]),
        ("demand field: 21 after 7", |checks| &mut checks.demand_field, &[1, 2, 3, 6, 8, 9, 7, 21]),
        ("demand field: no 21", |checks| &mut checks.demand_field, &[1, 2, 3, 6, 8, 9, 7]),
        ("demand in memory: 21 after 3", |checks| &mut checks.memory_demand, &[6, 8, 9, 3, 21, 7]),
        ("demand in memory: 21 after 7", |checks| &mut checks.memory_demand, &[6, 8, 9, 3, 7, 21]),
        ("demand in memory: 3 before 21", |checks| &mut checks.memory_demand, &[6, 8, 3, 21, 9, 7]),
        ("demand in memory: no 21", |checks| &mut checks.memory_demand, &[6, 8, 9, 3, 7]),
        ("groups: 24 before the request's tests", |checks| &mut checks.groups, &[24, REQUEST, 10]),
        ("certificate: before the plan", |checks| &mut checks.certify, &[REQUEST, SHAPE, WEIGHTS, SETS, 16, 17, 18]),
        ("certificate: no 17", |checks| &mut checks.certify, &[REQUEST, 16, 18, SHAPE, WEIGHTS, SETS]),
        ("certificate: no 18", |checks| &mut checks.certify, &[REQUEST, 16, 17, SHAPE, WEIGHTS, SETS]),
        ("certificate: any shape", |checks| &mut checks.certify, &[REQUEST, 16, 17, 18, WEIGHTS, SETS]),
        ("certificate: any weights", |checks| &mut checks.certify, &[REQUEST, 16, 17, 18, SHAPE, SETS]),
        ("certificate: no pairs, no threes", |checks| &mut checks.certify, &[REQUEST, 16, 17, 18, SHAPE, WEIGHTS]),
    ];
    let variant = |(name, list, order): (&str, List, &[u8])| {
        let mut rules = Rules::right();
        *list(&mut rules.checks) = order.to_vec();
        Variant { name: name.to_string(), rules }
    };
    orders.into_iter().map(variant).collect()
}

type Shift = fn(&mut Limits);

/// Limits one too low or one too high.
fn shifted() -> Vec<Variant> {
    let shifts: [(&str, Shift); 34] = [
        ("n0 from -401", |limits| limits.n0_least -= 1),
        ("n0 from -399", |limits| limits.n0_least += 1),
        ("n0 to 399", |limits| limits.n0_most -= 1),
        ("n0 to 401", |limits| limits.n0_most += 1),
        ("S from 0", |limits| limits.slots_least -= 1),
        ("S from 2", |limits| limits.slots_least += 1),
        ("S to 383", |limits| limits.slots_most -= 1),
        ("S to 385", |limits| limits.slots_most += 1),
        ("G to 7", |limits| limits.guard_most -= 1),
        ("G to 9", |limits| limits.guard_most += 1),
        ("63 links at most", |limits| limits.links_most -= 1),
        ("65 links at most", |limits| limits.links_most += 1),
        ("199 demands at most", |limits| limits.demands_most -= 1),
        ("201 demands at most", |limits| limits.demands_most += 1),
        ("routes from 0 hops", |limits| limits.hops_least -= 1),
        ("routes from 2 hops", |limits| limits.hops_least += 1),
        ("routes to 31 hops", |limits| limits.hops_most -= 1),
        ("routes to 33 hops", |limits| limits.hops_most += 1),
        ("widths from 0", |limits| limits.width_least -= 1),
        ("widths from 2", |limits| limits.width_least += 1),
        ("19 demands at most for the search", |limits| limits.search_most -= 1),
        ("21 demands at most for the search", |limits| limits.search_most += 1),
        ("groups from 0", |limits| limits.groups_least -= 1),
        ("groups from 2", |limits| limits.groups_least += 1),
        ("7 groups at most", |limits| limits.groups_most -= 1),
        ("9 groups at most", |limits| limits.groups_most += 1),
        ("a from 0", |limits| limits.weighed_least -= 1),
        ("a from 2", |limits| limits.weighed_least += 1),
        ("a to 1", |limits| limits.weighed_most -= 1),
        ("a to 3", |limits| limits.weighed_most += 1),
        ("request files to 8,127 bytes", |limits| limits.request_bytes -= 1),
        ("request files to 8,129 bytes", |limits| limits.request_bytes += 1),
        ("plan files to 1,399 bytes", |limits| limits.plan_bytes -= 1),
        ("plan files to 1,401 bytes", |limits| limits.plan_bytes += 1),
    ];
    let variant = |(name, shift): (&str, Shift)| {
        let mut rules = Rules::right();
        shift(&mut rules.limits);
        Variant { name: name.to_string(), rules }
    };
    shifts.into_iter().map(variant).collect()
}

/// Each row of the table of rates with a width one lower or one higher, each one left out, and rows that it does not have.
fn other_tables() -> Vec<Variant> {
    let variant = |name: String, rates: Vec<(i64, i64)>| Variant { name, rules: Rules { rates, ..Rules::right() } };
    let mut variants = Vec::new();
    for (at, (rate, width)) in RATES.into_iter().enumerate() {
        for wrong in [width - 1, width + 1] {
            let mut rates = RATES.to_vec();
            rates[at].1 = wrong;
            variants.push(variant(format!("a rate of {rate} gives {wrong}"), rates));
        }
        let rates = RATES.into_iter().filter(|row| row.0 != rate).collect();
        variants.push(variant(format!("a rate of {rate} is not listed"), rates));
    }
    for (rate, width) in [(0, 1), (1, 1), (25, 1), (50, 1), (200, 4), (800, 16)] {
        let rates = [&RATES[..], &[(rate, width)]].concat();
        variants.push(variant(format!("a rate of {rate} gives {width}"), rates));
    }
    variants
}

/// The number, counted from 1, of the first call that the variant answers otherwise.
pub fn told_apart(variant: &Variant, calls: &[Call], right: &[String]) -> Option<usize> {
    let differs = |(call, line): (&Call, &String)| answer(call, &variant.rules) != *line;
    calls.iter().zip(right).position(differs).map(|index| index + 1)
}

/// Prints a line for each variant; false when one is not told apart.
pub fn show(calls: &[Call]) -> bool {
    let right: Vec<String> = calls.iter().map(|call| answer(call, &Rules::right())).collect();
    let variants = all();
    let mut caught = 0;
    for (index, variant) in variants.iter().enumerate() {
        match told_apart(variant, calls, &right) {
            Some(frame) => {
                caught += 1;
                println!("variant {} told apart by frame {}: {}", index + 1, frame, variant.name);
            }
            None => println!("variant {} NOT TOLD APART: {}", index + 1, variant.name),
        }
    }
    println!("{} variants, {} told apart by {} frames", variants.len(), caught, calls.len());
    caught == variants.len()
}
