//! What the tests of more than one file ask of the second program. Not every file asks all of it.
#![allow(dead_code)]

use oracle::answers::answer;
use oracle::frames::{frame_of, Call};
use oracle::laws::law;
use oracle::rules::Rules;
use oracle::variants::{told_apart, Variant};

pub fn said(call: Call) -> String {
    answer(&call, &Rules::right())
}

pub fn read(file: &[u8]) -> String {
    said(Call::ReadRequest { file: file.to_vec() })
}

/// Some calls, and the right answer to each.
pub struct Answered {
    calls: Vec<Call>,
    right: Vec<String>,
}

impl Answered {
    /// Those of the calls that have this number and do not take long.
    pub fn of(op: u8, calls: &[Call]) -> Answered {
        let calls: Vec<Call> = calls.iter().filter(|call| frame_of(call)[0] == op && quick(call)).cloned().collect();
        let right = calls.iter().map(|call| said(call.clone())).collect();
        Answered { calls, right }
    }

    /// Whether one of the answers is another under these rules.
    pub fn differ_under(&self, rules: Rules) -> bool {
        let variant = Variant { name: String::new(), rules };
        told_apart(&variant, &self.calls, &self.right).is_some()
    }
}

/// All orders of seven groups or eight take long. The other cases show as much.
pub fn quick(call: &Call) -> bool {
    !matches!(call, Call::Groups { count: 7 | 8, .. })
}

/// Whether an answer under these rules breaks a law.
pub fn breaks_a_law(calls: &[Call], rules: &Rules) -> bool {
    calls.iter().any(|call| law(call, rules) == Some(false))
}
