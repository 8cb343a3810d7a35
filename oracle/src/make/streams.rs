//! Streams in which not every frame is good: they are answered up to the first that is malformed.

use super::chance::random_cases;
use super::dice::Dice;
use super::grouping::placements;
use super::longest::longest_cases;
use super::ones::packed;
use super::shapes::{changed, worked};
use crate::certify::Offer;
use crate::frames::{call_of, frame_of, framed, next_frame, Call};
use crate::rates::Asked;
use crate::request::{Band, Request};

/// A damaged search may be given any limit, and groups may be many. Streams with a larger limit than this, or with more demands
/// to place in all orders of the groups, are left out: they would take too long.
const LIMIT_MOST: u64 = 20_000;

/// Streams of which each begins with a good frame, has a malformed one next, and may go on with a good one that is not to
/// be answered.
pub fn malformed() -> Vec<Vec<u8>> {
    let good = frame_of(&Call::Sound { request: worked(384, 0) });
    let mut streams = Vec::new();
    for broken in unknown_ops() {
        streams.push([&good[..], &broken].concat());
        streams.push([&good[..], &broken, &good].concat());
    }
    for broken in wrong_lengths().into_iter().chain(wrong_tags()).chain(too_much_room()).chain(overlong()) {
        streams.push([&good[..], &broken, &good].concat());
    }
    for length in 1..good.len() {
        streams.push([&good[..], &good[..length]].concat());
    }
    streams.push([&good[..], &[0x01, 0xFF, 0xFF, 0xFF, 0xFF], &good].concat());
    streams
}

/// Streams of a few good frames, damaged by chance. Most end malformed, some are answered to their end.
pub fn damaged(seed: u64, count: usize) -> Vec<Vec<u8>> {
    let mut dice = Dice::new(seed);
    let mut streams = Vec::new();
    while streams.len() < count {
        let stream = damaged_stream(&mut dice);
        if !takes_long(&stream) {
            streams.push(stream);
        }
    }
    streams
}

fn unknown_ops() -> Vec<Vec<u8>> {
    [0x00, 0x0D, 0x1F, 0x22, 0x7F, 0xFF].iter().flat_map(|&op| [framed(op, &[]), framed(op, &[0; 40])]).collect()
}

/// A call of each op but the first, whose body can have any length.
fn one_of_each(request: &Request) -> Vec<Call> {
    let request = request.clone();
    let band = Band::new(-284, 384, 0);
    let offer = Offer { starts: vec![0, 3, 0], weights: vec![0, 1, 1], most: 1 };
    vec![
        Call::Sound { request: request.clone() },
        Call::WriteRequest { room: 43, request: request.clone() },
        Call::Bound { request: request.clone() },
        Call::FirstFit { rooms: [3, 4], order: vec![2, 1, 0], request: request.clone() },
        Call::Search { limit: 5, rooms: [3; 3], request: request.clone() },
        Call::Groups { rooms: [4, 3], count: 2, request: request.clone() },
        Call::Check { starts: vec![0, 3, 0], request: request.clone() },
        Call::ReadPlan { room: 3, file: vec![4, 0, 4, 0, 10, 0, 0], request: request.clone() },
        Call::WritePlan { room: 21, starts: vec![0, 3, 0], request: request.clone() },
        Call::Certify { counts: [3; 2], offer, request },
        Call::Frequency { band: band.clone(), start: 0, width: 2 },
        Call::Block { band, n: -282, m: 2 },
        Call::PlaceOne { one: packed(3, 20) },
    ]
}

/// Bodies that end before their time, wherever that is, or a byte after it.
fn wrong_lengths() -> Vec<Vec<u8>> {
    let mut frames = Vec::new();
    for frame in one_of_each(&worked(384, 0)).iter().map(frame_of) {
        let (op, body) = (frame[0], &frame[5..]);
        frames.extend((0..body.len()).map(|length| framed(op, &body[..length])));
        frames.push(framed(op, &[body, &[0]].concat()));
    }
    frames
}

/// A demand under a tag that is none of a demand's, first or last of three, by width or by rate before. The request comes last
/// in every body, so its demands are counted from there.
fn wrong_tags() -> Vec<Vec<u8>> {
    let request = changed(&worked(384, 0), |request| request.demands[2].asked = Asked::Rate(40));
    let mut frames = Vec::new();
    for call in one_of_each(&request).iter().filter(|call| call.request().is_some()) {
        let frame = frame_of(call);
        for (at, tags) in [(0, &[0x00, 0x06][..]), (2, &[0x02, 0x04])] {
            let behind: usize = request.demands[at..].iter().map(|demand| 6 + demand.hops).sum();
            for &tag in tags {
                let mut frame = frame.clone();
                let place = frame.len() - behind;
                frame[place] = tag;
                frames.push(frame);
            }
        }
    }
    frames.extend(refused_and_tagged());
    frames
}

/// A wrong tag in a request that would be refused before its demands are tested, or at an earlier one.
fn refused_and_tagged() -> Vec<Vec<u8>> {
    let bad_band = changed(&worked(384, 0), |request| request.band.guard = 9);
    let bad_rate = changed(&worked(384, 0), |request| request.demands[0].asked = Asked::Rate(11));
    let mut frames = Vec::new();
    for request in [bad_band, bad_rate] {
        for tag in [0x00, 0x01, 0x02, 0x04, 0x06, 0x07, 0x83, 0x85, 0xFF] {
            let mut frame = frame_of(&Call::Sound { request: request.clone() });
            let place = frame.len() - 7;
            frame[place] = tag;
            frames.push(frame);
        }
    }
    frames
}

fn too_much_room() -> Vec<Vec<u8>> {
    let request = worked(384, 0);
    let mut calls = Vec::new();
    for room in [8_193, 65_535] {
        let request = request.clone();
        calls.extend([
            Call::WriteRequest { room, request: request.clone() },
            Call::FirstFit { rooms: [room, 3], order: vec![0, 1, 2], request: request.clone() },
            Call::FirstFit { rooms: [3, room], order: vec![0, 1, 2], request: request.clone() },
            Call::Search { limit: 5, rooms: [room, 3, 3], request: request.clone() },
            Call::Search { limit: 5, rooms: [3, room, 3], request: request.clone() },
            Call::Search { limit: 5, rooms: [3, 3, room], request: request.clone() },
            Call::Groups { rooms: [room, 3], count: 2, request: request.clone() },
            Call::Groups { rooms: [3, room], count: 2, request: request.clone() },
            Call::ReadPlan { room, file: vec![], request: request.clone() },
            Call::WritePlan { room, starts: vec![0, 3, 0], request },
        ]);
    }
    calls.iter().map(frame_of).collect()
}

/// The longest bodies with a byte more, and bodies far longer than any call takes.
fn overlong() -> Vec<Vec<u8>> {
    let longest = longest_cases().calls;
    let longer = longest.iter().map(frame_of).filter(|frame| frame[0] != 0x01);
    let mut frames: Vec<Vec<u8>> = longer.map(|frame| framed(frame[0], &[&frame[5..], &[0]].concat())).collect();
    frames.extend((0x02..=0x0C).chain([0x20, 0x21]).map(|op| framed(op, &[0; 200_000])));
    frames
}

fn damaged_stream(dice: &mut Dice) -> Vec<u8> {
    let seed = dice.below(usize::MAX) as u64;
    let frames: Vec<Vec<u8>> = random_cases(seed, 1 + dice.below(4)).calls.iter().map(frame_of).collect();
    let mut stream: Vec<u8> = frames.iter().flat_map(|frame| damaged_frame(frame, dice)).collect();
    if dice.one_in(4) {
        damage_bytes(&mut stream, dice);
    }
    stream
}

/// Damage to the body, with a length that is right; now and then another op.
fn damaged_frame(frame: &[u8], dice: &mut Dice) -> Vec<u8> {
    let mut body = frame[5..].to_vec();
    while dice.one_in(2) {
        damage_bytes(&mut body, dice);
    }
    let other = if dice.one_in(8) { dice.pick(&[0x20, 0x21]) } else { dice.below(14) as u8 };
    let op = if dice.one_in(10) { other } else { frame[0] };
    framed(op, &body)
}

fn damage_bytes(bytes: &mut Vec<u8>, dice: &mut Dice) {
    let at = dice.below(bytes.len());
    match dice.below(8) {
        0 => bytes.truncate(at),
        1 => bytes.insert(at, dice.below(256) as u8),
        2 if !bytes.is_empty() => drop(bytes.remove(at)),
        3 if !bytes.is_empty() => bytes[at] = dice.pick(&[0, 1, 0x7F, 0x80, 0xFF]),
        4 if !bytes.is_empty() => bytes[at] = dice.below(256) as u8,
        _ if !bytes.is_empty() => bytes[at] ^= 1 << dice.below(8),
        _ => {}
    }
}

fn takes_long(mut stream: &[u8]) -> bool {
    while let Some(call) = next_frame(&mut stream).and_then(|(op, body)| call_of(op, body)) {
        let steps = match call {
            Call::Search { limit, .. } => limit,
            Call::Groups { count, request, .. } => placements(count, request.demand_count) as u64,
            _ => 0,
        };
        if steps > LIMIT_MOST {
            return true;
        }
    }
    false
}
