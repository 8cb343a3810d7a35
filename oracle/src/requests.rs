//! The request files that calls are about, each beside the lines that `lightplan` prints for it.

use crate::frames::Call;
use crate::lightplan::lightplan;
use crate::request_file::request_bytes;
use crate::rules::Rules;
use crate::sound::test_request;
use std::collections::HashSet;
use std::fs;
use std::io;
use std::path::Path;

/// Writes `N.request` and `N.lines` into a folder for each request of the calls, and says how many.
pub fn write_all(calls: &[Call], folder: &Path) -> io::Result<usize> {
    let rules = Rules::right();
    let mut seen = HashSet::new();
    for file in calls.iter().filter_map(|call| file_of(call, &rules)) {
        if seen.insert(file.clone()) {
            let name = folder.join(seen.len().to_string());
            fs::write(name.with_extension("request"), &file)?;
            fs::write(name.with_extension("lines"), lightplan(&file, &rules))?;
        }
    }
    Ok(seen.len())
}

/// The file of a call that reads one, or that searches a sound request.
fn file_of(call: &Call, rules: &Rules) -> Option<Vec<u8>> {
    match call {
        Call::ReadRequest { file } => Some(file.clone()),
        Call::Search { request, .. } if test_request(request, rules).is_ok() => Some(request_bytes(request)),
        _ => None,
    }
}
