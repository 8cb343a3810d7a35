//! The pairs of a request file and a plan file that calls are about, each beside the lines that a check of them prints.

use crate::answers::refused;
use crate::bound::bound;
use crate::fields::put_field;
use crate::frames::Call;
use crate::lightplan::row;
use crate::plan::{row_body, ROW};
use crate::plan_file::read_plan;
use crate::request::{Refusal, Request};
use crate::request_file::{read_request, request_bytes};
use crate::rules::Rules;
use crate::sound::test_request;
use std::collections::HashSet;
use std::fs;
use std::io;
use std::path::Path;

type Pair = (Vec<u8>, Vec<u8>);

/// Writes `N.request`, `N.plan` and `N.lines` into a folder for each pair of the calls, and says how many.
pub fn write_all(calls: &[Call], folder: &Path) -> io::Result<usize> {
    let rules = Rules::right();
    let mut seen = HashSet::new();
    for pair in calls.iter().filter_map(|call| pair_of(call, &rules)) {
        if seen.insert(pair.clone()) {
            let name = folder.join(seen.len().to_string());
            fs::write(name.with_extension("request"), &pair.0)?;
            fs::write(name.with_extension("plan"), &pair.1)?;
            fs::write(name.with_extension("lines"), lines(&pair, &rules))?;
        }
    }
    Ok(seen.len())
}

/// The files of a call that reads or checks a plan of a sound request, or that reads a request; this one with an empty plan.
fn pair_of(call: &Call, rules: &Rules) -> Option<Pair> {
    let sound = |request: &Request| Some(request_bytes(request)).filter(|_| test_request(request, rules).is_ok());
    match call {
        Call::ReadRequest { file } => Some((file.clone(), Vec::new())),
        Call::ReadPlan { file, request, .. } => Some((sound(request)?, file.clone())),
        Call::Check { starts, request } | Call::WritePlan { starts, request, .. } => {
            Some((sound(request)?, rows_of(request, starts)))
        }
        _ => None,
    }
}

/// A row for each start that a demand has.
fn rows_of(request: &Request, starts: &[i64]) -> Vec<u8> {
    let mut out = Vec::new();
    for (demand, &start) in request.demands.iter().zip(starts) {
        put_field(&mut out, ROW, &row_body(demand.ident, start));
    }
    out
}

fn lines(pair: &Pair, rules: &Rules) -> String {
    accepted(&pair.0, &pair.1, rules).unwrap_or_else(|refusal| refused(&refusal) + "\n")
}

fn accepted(request_file: &[u8], plan_file: &[u8], rules: &Rules) -> Result<String, Refusal> {
    let request = read_request(request_file, rules)?;
    let mut starts = vec![0; request.demand_count];
    let end = read_plan(&request, plan_file, &mut starts, rules)?;
    let mut text = format!("accepted end {end} bound {}\n", bound(&request, rules));
    for (position, &start) in starts.iter().enumerate() {
        text += &row(&request, position, start as i64, rules)?;
    }
    Ok(text)
}
