//! The commands.

use oracle::frames::{call_of, frame_of, next_frame, Call};
use oracle::rules::Rules;
use oracle::{answers, best, census, compare, laws, lightplan, make, plans, requests, variants};
use std::fs;
use std::io::{self, Read, Write};
use std::path::Path;
use std::process::ExitCode;

const USAGE: &str =
    "usage: oracle answer | check-best [LINES] | check-laws | compare LINES | variants | census | only OP  < frames
       oracle lightplan  < request
       oracle requests FOLDER | plans FOLDER  < frames
       oracle make stored | make longest | make random SEED COUNT | make small SEED COUNT
       oracle streams FOLDER SEED COUNT";

fn main() -> ExitCode {
    let words: Vec<String> = std::env::args().skip(1).collect();
    let words: Vec<&str> = words.iter().map(String::as_str).collect();
    match run(&words) {
        Ok(true) => ExitCode::SUCCESS,
        Ok(false) => ExitCode::FAILURE,
        Err(message) => {
            eprintln!("{message}");
            ExitCode::from(2)
        }
    }
}

fn run(words: &[&str]) -> Result<bool, String> {
    match words {
        ["answer"] => print(&joined_lines(&answers::answer_stream(&input()?, &Rules::right()))),
        ["check-best"] => check_best(None),
        ["check-best", lines] => check_best(Some(Path::new(lines))),
        ["check-laws"] => Ok(laws::check(&input_calls()?)),
        ["compare", lines] => Ok(compare::compare(&input()?, &text_of(Path::new(lines))?)),
        ["variants"] => Ok(variants::show(&input_calls()?)),
        ["only", op] => print(&frames(&of_op(u8::from_str_radix(op, 16).map_err(|_| USAGE)?, input_calls()?))),
        ["census"] => print(&joined_lines(&census::census(&input_calls()?))),
        ["lightplan"] => print(lightplan::lightplan(&input()?, &Rules::right()).as_bytes()),
        ["requests", folder] => counted(requests::write_all(&input_calls()?, Path::new(folder))),
        ["plans", folder] => counted(plans::write_all(&input_calls()?, Path::new(folder))),
        ["make", "stored"] => print(&frames(&make::stored())),
        ["make", "random", seed, count] => print(&frames(&make::random(number(seed)?, number(count)? as usize))),
        ["make", "small", seed, count] => print(&frames(&make::small(number(seed)?, number(count)? as usize))),
        ["make", "longest"] => print(&frames(&make::longest())),
        ["streams", folder, seed, count] => write_streams(Path::new(folder), number(seed)?, number(count)? as usize),
        _ => Err(USAGE.to_string()),
    }
}

fn number(word: &str) -> Result<u64, String> {
    word.parse().map_err(|_| format!("not a number: {word}"))
}

fn input() -> Result<Vec<u8>, String> {
    let mut bytes = Vec::new();
    io::stdin().read_to_end(&mut bytes).map_err(|error| error.to_string())?;
    Ok(bytes)
}

/// The calls of a stream in which no frame is malformed.
fn input_calls() -> Result<Vec<Call>, String> {
    let bytes = input()?;
    let mut stream = &bytes[..];
    let mut calls = Vec::new();
    while !stream.is_empty() {
        let call = next_frame(&mut stream).and_then(|(op, body)| call_of(op, body));
        calls.push(call.ok_or_else(|| format!("frame {} is malformed", calls.len() + 1))?);
    }
    Ok(calls)
}

fn counted(files: io::Result<usize>) -> Result<bool, String> {
    let count = files.map_err(|error| error.to_string())?;
    print(format!("{count}\n").as_bytes())
}

fn print(bytes: &[u8]) -> Result<bool, String> {
    io::stdout().write_all(bytes).map_err(|error| error.to_string())?;
    Ok(true)
}

fn frames(calls: &[Call]) -> Vec<u8> {
    calls.iter().flat_map(frame_of).collect()
}

fn of_op(op: u8, calls: Vec<Call>) -> Vec<Call> {
    calls.into_iter().filter(|call| frame_of(call)[0] == op).collect()
}

fn joined_lines(lines: &[String]) -> Vec<u8> {
    lines.iter().flat_map(|line| format!("{line}\n").into_bytes()).collect()
}

fn text_of(path: &Path) -> Result<String, String> {
    let bytes = fs::read(path).map_err(|error| format!("{}: {error}", path.display()))?;
    Ok(String::from_utf8_lossy(&bytes).into_owned())
}

/// Holds the lines of a file against brute force, or where none is named this program's own.
fn check_best(lines: Option<&Path>) -> Result<bool, String> {
    let calls = input_calls()?;
    let lines: Vec<String> = match lines {
        Some(path) => text_of(path)?.lines().map(str::to_string).collect(),
        None => calls.iter().map(|call| answers::answer(call, &Rules::right())).collect(),
    };
    Ok(best::check(&calls, &lines))
}

/// Writes `N.frames` for each stream beside `N.lines`, what is to be printed for it, and says how many.
fn write_streams(folder: &Path, seed: u64, count: usize) -> Result<bool, String> {
    let streams = [make::malformed(), make::damaged(seed, count)].concat();
    for (index, stream) in streams.iter().enumerate() {
        let name = folder.join((index + 1).to_string());
        let lines = joined_lines(&answers::answer_stream(stream, &Rules::right()));
        let written = fs::write(name.with_extension("frames"), stream);
        written.and_then(|()| fs::write(name.with_extension("lines"), lines)).map_err(|error| error.to_string())?;
    }
    print(format!("{}\n", streams.len()).as_bytes())
}
