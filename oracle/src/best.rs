//! What is said of searches, of whole groups and of certificates on small bands, held against brute force over all plans.

use crate::brute::{best_end, is_plan, plans_to_try};
use crate::frames::Call;
use crate::request::Request;
use crate::rules::Rules;
use crate::sound::test_request;

#[derive(Default)]
struct Tally {
    finished: usize,
    nothing_fits: usize,
    unfinished: usize,
    grouped: usize,
    nothing_found: usize,
    best: usize,
    at_least: usize,
    passed_over: usize,
    wrong: usize,
}

/// Holds the line of every search, of every call for groups and of every certificate on a small band against brute force and
/// prints the counts; false when one is wrong, or when of the first word of an answer that settles something none is held.
/// Refusals are passed over.
pub fn check(calls: &[Call], lines: &[String]) -> bool {
    let mut tally = Tally::default();
    for (index, (call, line)) in calls.iter().zip(lines).enumerate() {
        let (Call::Search { request, .. } | Call::Groups { request, .. } | Call::Certify { request, .. }) = call else {
            continue;
        };
        if small(request) && !line.starts_with("refused ") {
            hold(index + 1, call, request, line, &mut tally);
        } else {
            tally.passed_over += 1;
        }
    }
    println!(
        "best ends: {} finished, {} nothing fits, {} unfinished, {} grouped, {} nothing found, {} best, {} at least held \
         against brute force, {} passed over, {} wrong",
        tally.finished,
        tally.nothing_fits,
        tally.unfinished,
        tally.grouped,
        tally.nothing_found,
        tally.best,
        tally.at_least,
        tally.passed_over,
        tally.wrong
    );
    let kinds = [tally.finished, tally.nothing_fits, tally.grouped, tally.nothing_found, tally.best, tally.at_least];
    calls.len() == lines.len() && tally.wrong == 0 && kinds.iter().all(|&held| held > 0)
}

fn small(request: &Request) -> bool {
    test_request(request, &Rules::right()).is_ok()
        && request.demand_count <= 20
        && plans_to_try(request, &Rules::right()).is_some()
}

fn hold(frame: usize, call: &Call, request: &Request, line: &str, tally: &mut Tally) {
    match line.split(' ').next() {
        Some("finished") => tally.finished += 1,
        Some("nofit") => tally.nothing_fits += 1,
        Some("grouped") => tally.grouped += 1,
        Some("nothing") => tally.nothing_found += 1,
        Some("best") => tally.best += 1,
        Some("atleast") => tally.at_least += 1,
        _ => tally.unfinished += 1,
    }
    let best = best_end(request, &Rules::right());
    let held = match call {
        Call::Groups { count, .. } => groups_agree(request, *count, line, best),
        Call::Certify { offer, .. } => certificate_agrees(request, &offer.starts, line, best),
        _ => agrees(request, line, best),
    };
    if held != Some(true) {
        tally.wrong += 1;
        println!("frame {frame}: {line}; the best of all plans is {best:?}");
    }
}

/// Finished means the best of all plans; nothing fits means there is none; a plan so far is no better than the best.
/// A plan that is shown is one, and has its end. `None` for a line that cannot be read.
fn agrees(request: &Request, line: &str, best: Option<i64>) -> Option<bool> {
    let words: Vec<&str> = line.split(' ').collect();
    let end: i64 = words.get(2)?.parse().ok()?;
    let shown = || is_plan(request, &entries(words.get(11)?)?, end, &Rules::right());
    match words[0] {
        "finished" => Some(best == Some(end) && shown()?),
        "nofit" => Some(best.is_none() && end == 0),
        "unfinished" => Some(best? <= end && shown()?),
        "unfinished-empty" => Some(end == 0),
        _ => None,
    }
}

/// With as many groups as demands the end is the best of all plans, and nothing is found exactly where there is none. With
/// fewer groups the end may be higher, and a plan may be missed. A plan that is shown is one, and has its end.
fn groups_agree(request: &Request, count: usize, line: &str, best: Option<i64>) -> Option<bool> {
    let words: Vec<&str> = line.split(' ').collect();
    let alone = count == request.demand_count;
    match words[0] {
        "grouped" => {
            let end: i64 = words.get(1)?.parse().ok()?;
            let lowest = best? == end || (!alone && best? < end);
            Some(lowest && is_plan(request, &entries(words.get(3)?)?, end, &Rules::right())?)
        }
        "nothing" => Some(!alone || best.is_none()),
        _ => None,
    }
}

/// Best means the best of all plans; else none of them ends below the certificate's end. The plan given is one, and has its end.
fn certificate_agrees(request: &Request, starts: &[i64], line: &str, best: Option<i64>) -> Option<bool> {
    let words: Vec<&str> = line.split(' ').collect();
    let number = |at: usize| words.get(at).and_then(|word| word.parse::<i64>().ok());
    let (end, lowest) = match words[0] {
        "best" => (number(1)?, best? == number(1)?),
        "atleast" => (number(2)?, number(1)? <= best? && number(1)? < number(2)?),
        _ => return None,
    };
    Some(lowest && is_plan(request, starts, end, &Rules::right())?)
}

fn entries(word: &str) -> Option<Vec<i64>> {
    if word == "-" {
        return Some(vec![]);
    }
    word.split(',').map(|entry| entry.parse().ok()).collect()
}
