//! What `lightplan` prints for a request file.

use crate::answers::{counts, refused};
use crate::frequency::to_frequency;
use crate::request::{Refusal, Request};
use crate::request_file::read_request;
use crate::rules::Rules;
use crate::walk::{search, Found, Outcome};

const LIMIT: u64 = 1_000_000;

pub fn lightplan(file: &[u8], rules: &Rules) -> String {
    shown(file, rules).unwrap_or_else(|refusal| refused(&refusal) + "\n")
}

fn shown(file: &[u8], rules: &Rules) -> Result<String, Refusal> {
    let request = read_request(file, rules)?;
    let mut starts = vec![0; request.demand_count];
    let mut order = starts.clone();
    let mut blockers = starts.clone();
    let found = search(&request, LIMIT, &mut starts, &mut order, &mut blockers, rules)?;
    let mut text = format!("{} {}\n", word(&found), counts(&found));
    if matches!(found.outcome, Outcome::Finished | Outcome::Unfinished) {
        for (position, &start) in starts.iter().enumerate() {
            text += &row(&request, position, start as i64, rules)?;
        }
    }
    Ok(text)
}

fn word(found: &Found) -> &'static str {
    match found.outcome {
        Outcome::Finished => "finished",
        Outcome::NoFit => "nofit",
        Outcome::Unfinished | Outcome::UnfinishedEmpty => "unfinished",
    }
}

/// Ident, start, end, n and central MHz.
pub fn row(request: &Request, position: usize, start: i64, rules: &Rules) -> Result<String, Refusal> {
    let demand = &request.demands[position];
    let width = demand.width(rules);
    let centre = to_frequency(&request.band, start, width, rules)?;
    Ok(format!("{} {} {} {} {}\n", demand.ident, start, start + width, centre.n, centre.mhz))
}
