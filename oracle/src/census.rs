//! How often each op is answered with each word, refusals with their numbers; calls with a demand by rate apart.

use crate::answers::answer;
use crate::fields::whole_fields;
use crate::frames::{frame_of, Call};
use crate::rates::BY_RATE;
use crate::rules::Rules;
use std::collections::BTreeMap;

pub fn census(calls: &[Call]) -> Vec<String> {
    let mut counts = BTreeMap::new();
    for call in calls {
        let by_rate = if asks_for_rates(call) { " by rate" } else { "" };
        *counts.entry((frame_of(call)[0], headline(call) + by_rate)).or_insert(0) += 1;
    }
    counts.iter().map(|((op, word), count)| format!("{op:02X} {word} {count}")).collect()
}

/// Whether a demand is by rate, in the request or in the file of one.
pub fn asks_for_rates(call: &Call) -> bool {
    match call {
        Call::ReadRequest { file } => whole_fields(file).iter().any(|field| field.tag == BY_RATE),
        _ => call.request().is_some_and(|request| request.demands.iter().any(|demand| demand.asked.is_rate())),
    }
}

/// The first word of the answer to a call; a refusal's number with it, and for one demand placed alone that nobody is named.
pub fn headline(call: &Call) -> String {
    let line = answer(call, &Rules::right());
    let mut words = line.split(' ');
    match words.next().unwrap_or("") {
        "refused" => format!("refused {:>2}", words.next().unwrap_or("")),
        word @ ("at" | "nowhere") if line.ends_with(" none") => format!("{word} none"),
        word => word.to_string(),
    }
}
