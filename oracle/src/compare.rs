//! Lines that another program printed for a stream of frames, held against the answers.

use crate::answers::{answer_stream, hex};
use crate::frames::next_frame;
use crate::rules::Rules;

/// More differences than this are counted but not shown.
const SHOWN_MOST: usize = 5;

/// Compares line by line, shows the first differences with their frames and prints the counts; false when there is one,
/// or nothing to compare.
pub fn compare(stream: &[u8], printed: &str) -> bool {
    let answers = answer_stream(stream, &Rules::right());
    let wanted: Vec<String> = answers.into_iter().map(|line| line + "\n").collect();
    let printed: Vec<&str> = printed.split_inclusive('\n').collect();
    let frames = frames_of(stream);
    let mut different = 0;
    for at in 0..wanted.len().max(printed.len()) {
        let (wanted, printed) = (wanted.get(at).map(String::as_str), printed.get(at).copied());
        if wanted != printed {
            different += 1;
            if different <= SHOWN_MOST {
                println!("frame {}: {}", at + 1, frames.get(at).map_or("none".to_string(), |frame| hex(frame)));
                println!("  wanted:  {}\n  printed: {}", shown(wanted), shown(printed));
            }
        }
    }
    println!("{} lines wanted, {} printed, {} different", wanted.len(), printed.len(), different);
    different == 0 && !wanted.is_empty()
}

/// The frames, each with its head. One that is cut short takes the rest.
fn frames_of(stream: &[u8]) -> Vec<&[u8]> {
    let mut rest = stream;
    let mut frames = Vec::new();
    while !rest.is_empty() {
        let whole = rest;
        if next_frame(&mut rest).is_none() {
            rest = &[];
        }
        frames.push(&whole[..whole.len() - rest.len()]);
    }
    frames
}

fn shown(line: Option<&str>) -> String {
    line.map_or("no line".to_string(), |line| format!("{line:?}"))
}
