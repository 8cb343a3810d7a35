//! One line for each call. Lent buffers are filled beforehand and shown whole.

use crate::bound::tested_bound;
use crate::certify::{certify, Certified, Offer};
use crate::frames::{call_of, next_frame, Call};
use crate::frequency::{to_block, to_frequency};
use crate::groups::{group_orders, Grouped};
use crate::one::{place_one, Spot};
use crate::placing::first_fit;
use crate::plan::{check_starts, write_plan};
use crate::plan_file::read_plan;
use crate::request::{Refusal, Request};
use crate::request_file::{read_request, write_request, written};
use crate::rules::Rules;
use crate::sound::test_request;
use crate::walk::{search, Found, Outcome};

const BYTE: u8 = 0xAA;
const ENTRY: u16 = 43690;

/// The lines for a stream of frames. A malformed frame ends it.
pub fn answer_stream(mut stream: &[u8], rules: &Rules) -> Vec<String> {
    let mut lines = Vec::new();
    while !stream.is_empty() {
        match next_frame(&mut stream).and_then(|(op, body)| call_of(op, body)) {
            Some(call) => lines.push(answer(&call, rules)),
            None => {
                lines.push("malformed".to_string());
                break;
            }
        }
    }
    lines
}

pub fn answer(call: &Call, rules: &Rules) -> String {
    match call {
        Call::ReadRequest { file } => {
            said(read_request(file, rules).map(|request| format!("read {}", hex(&written(&request, rules)))), &[])
        }
        Call::Sound { request } => said(test_request(request, rules).map(|()| "sound".to_string()), &[]),
        Call::WriteRequest { room, request } => {
            let mut out = vec![BYTE; *room];
            wrote(write_request(request, &mut out, rules), &out)
        }
        Call::Bound { request } => said(tested_bound(request, rules).map(|bound| format!("bound {bound}")), &[]),
        Call::FirstFit { rooms, order, request } => placed(request, order, rooms, rules),
        Call::Search { limit, rooms, request } => searched(request, *limit, rooms, rules),
        Call::Groups { rooms, count, request } => grouped(request, *count, rooms, rules),
        Call::Check { starts, request } => {
            said(check_starts(request, starts, rules).map(|end| format!("accepted {end}")), &[])
        }
        Call::ReadPlan { room, file, request } => {
            let mut out = vec![ENTRY; *room];
            let end = read_plan(request, file, &mut out, rules);
            said(end.map(|end| format!("read {end}")), &[entries(&out)])
        }
        Call::WritePlan { room, starts, request } => {
            let mut out = vec![BYTE; *room];
            wrote(write_plan(request, starts, &mut out, rules), &out)
        }
        Call::Frequency { band, start, width } => {
            let centre = to_frequency(band, *start, *width, rules);
            said(centre.map(|centre| format!("frequency {} {} {}", centre.n, centre.m, centre.mhz)), &[])
        }
        Call::Block { band, n, m } => {
            said(to_block(band, *n, *m, rules).map(|(start, width)| format!("block {start} {width}")), &[])
        }
        Call::Certify { offer, request, .. } => certified(request, offer, rules),
        Call::PlaceOne { one } => match place_one(one, rules) {
            Spot::At(start, blocker) => format!("at {start} {}", named(blocker)),
            Spot::Nowhere(blocker) => format!("nowhere {}", named(blocker)),
        },
    }
}

/// What first fit answers with buffers of so many entries.
fn placed(request: &Request, order: &[usize], rooms: &[usize; 2], rules: &Rules) -> String {
    let [mut starts, mut blockers] = rooms.map(|room| vec![ENTRY; room]);
    let end = first_fit(request, order, &mut starts, &mut blockers, rules);
    said(end.map(|end| format!("placed {end}")), &[entries(&starts), entries(&blockers)])
}

/// What groups are answered with buffers of so many entries.
fn grouped(request: &Request, count: usize, rooms: &[usize; 2], rules: &Rules) -> String {
    let [mut starts, mut blockers] = rooms.map(|room| vec![ENTRY; room]);
    let found = group_orders(request, count, &mut starts, &mut blockers, rules);
    let words = |found: Option<Grouped>| match found {
        Some(grouped) => format!("grouped {} {}", grouped.end, entries(&grouped.groups)),
        None => "nothing".to_string(),
    };
    said(found.map(words), &[entries(&starts), entries(&blockers)])
}

/// What a plan with a certificate is answered.
fn certified(request: &Request, offer: &Offer, rules: &Rules) -> String {
    let words = |told: Certified| match told {
        Certified::Best(end) => format!("best {end}"),
        Certified::AtLeast(low, end) => format!("atleast {low} {end}"),
    };
    said(certify(request, offer, rules).map(words), &[])
}

/// The words of an answer or of a refusal, then the lent buffers.
fn said(answer: Result<String, Refusal>, buffers: &[String]) -> String {
    let words = answer.unwrap_or_else(|refusal| refused(&refusal));
    let mut parts = vec![words];
    parts.extend_from_slice(buffers);
    parts.join(" ")
}

pub fn refused(refusal: &Refusal) -> String {
    match refusal.number {
        13 => format!("refused 13 {} {}", refusal.place, named(refusal.blocker)),
        number => format!("refused {number} {}", refusal.place),
    }
}

fn named(blocker: Option<usize>) -> String {
    blocker.map_or("none".to_string(), |blocker| blocker.to_string())
}

fn wrote(count: Result<usize, Refusal>, out: &[u8]) -> String {
    said(count.map(|count| format!("wrote {count}")), &[hex(out)])
}

fn searched(request: &Request, limit: u64, rooms: &[usize; 3], rules: &Rules) -> String {
    let [mut starts, mut order, mut blockers] = rooms.map(|room| vec![ENTRY; room]);
    let found = search(request, limit, &mut starts, &mut order, &mut blockers, rules);
    let buffers = [entries(&starts), entries(&order), entries(&blockers)];
    said(found.map(|found| format!("{} {}", outcome(&found), counts(&found))), &buffers)
}

fn outcome(found: &Found) -> &'static str {
    match found.outcome {
        Outcome::Finished => "finished",
        Outcome::NoFit => "nofit",
        Outcome::Unfinished => "unfinished",
        Outcome::UnfinishedEmpty => "unfinished-empty",
    }
}

pub fn counts(found: &Found) -> String {
    format!(
        "end {} bound {} steps {} reached {} ruled {}",
        found.end, found.bound, found.steps, found.reached, found.ruled
    )
}

pub fn hex(bytes: &[u8]) -> String {
    if bytes.is_empty() {
        return "-".to_string();
    }
    bytes.iter().map(|byte| format!("{byte:02X}")).collect()
}

fn entries<T: ToString>(numbers: &[T]) -> String {
    if numbers.is_empty() {
        return "-".to_string();
    }
    numbers.iter().map(|number| number.to_string()).collect::<Vec<_>>().join(",")
}
