//! The worked set c1 to c12, the four lines `lightplan` prints, what was in the way, and what the made cases cover.

mod common;

use common::{breaks_a_law, read, said, Answered};
use oracle::answers::answer_stream;
use oracle::census::headline;
use oracle::fields::put_field;
use oracle::frames::{call_of, frame_of, Call};
use oracle::lightplan::lightplan;
use oracle::make::shapes::{changed, line, triangle, wedged, worked};
use oracle::make::{malformed, random, stored};
use oracle::one::{One, Standing};
use oracle::request::{Band, Demand, Request};
use oracle::rules::Rules;
use oracle::slips::{Slip, SLIPS};
use oracle::variants;

const R: [u8; 43] = [
    0x01, 0x00, 0x05, 0xFE, 0xE4, 0x01, 0x80, 0x00, //
    0x02, 0x00, 0x02, 0x00, 0x01, //
    0x02, 0x00, 0x02, 0x01, 0x02, //
    0x03, 0x00, 0x05, 0x00, 0x0A, 0x00, 0x02, 0x00, //
    0x03, 0x00, 0x06, 0x00, 0x14, 0x00, 0x01, 0x00, 0x01, //
    0x03, 0x00, 0x05, 0x00, 0x1E, 0x00, 0x03, 0x01,
];

fn placed(request: &Request) -> String {
    placed_as(&[0, 1, 2], request)
}

fn placed_as(order: &[usize], request: &Request) -> String {
    said(Call::FirstFit { rooms: [order.len(); 2], order: order.to_vec(), request: request.clone() })
}

fn placed_alone(slots: i64, guard: i64, width: i64, blocks: &[(i64, i64)]) -> String {
    let numbers = blocks.iter().map(|&(start, end)| Standing { meets: 1, start, end }).collect();
    said(Call::PlaceOne { one: One::new(slots, guard, width, numbers) })
}

fn bound(request: &Request) -> String {
    said(Call::Bound { request: request.clone() })
}

fn searched(limit: u64, request: &Request) -> String {
    said(Call::Search { limit, rooms: [request.demand_count; 3], request: request.clone() })
}

fn checked(starts: &[i64], request: &Request) -> String {
    said(Call::Check { starts: starts.to_vec(), request: request.clone() })
}

fn frequency(start: i64, width: i64) -> String {
    said(Call::Frequency { band: Band::new(-284, 384, 0), start, width })
}

fn block(n: i64, m: i64) -> String {
    said(Call::Block { band: Band::new(-284, 384, 0), n, m })
}

#[test]
fn the_worked_file_is_the_worked_request() {
    let hex: String = R.iter().map(|byte| format!("{byte:02X}")).collect();
    assert_eq!(read(&R), format!("read {hex}"));
    assert_eq!(said(Call::WriteRequest { room: 43, request: worked(384, 0) }), format!("wrote 43 {hex}"));
}

#[test]
fn c1_listing_order() {
    assert_eq!(placed(&worked(384, 0)), "placed 6 0,2,3 65535,0,1");
    assert_eq!(bound(&worked(384, 0)), "bound 4");
}

#[test]
fn c2_searched_with_limit_5() {
    let line = "finished end 4 bound 4 steps 5 reached 2 ruled 0 0,3,0 0,2,1 65535,2,65535";
    assert_eq!(searched(5, &worked(384, 0)), line);
}

#[test]
fn c3_limit_4_is_unfinished() {
    let line = "unfinished end 6 bound 4 steps 4 reached 1 ruled 0 0,2,3 0,1,2 65535,0,1";
    assert_eq!(searched(4, &worked(384, 0)), line);
}

#[test]
fn c4_nothing_fits_in_three_slots() {
    let line = "nofit end 0 bound 4 steps 0 reached 0 ruled 6 43690,43690,43690 43690,43690,43690 43690,43690,43690";
    assert_eq!(searched(5, &worked(3, 0)), line);
}

#[test]
fn c5_with_a_guard() {
    let request = worked(384, 1);
    assert_eq!(bound(&request), "bound 5");
    assert_eq!(placed(&request), "placed 8 0,3,5 65535,0,1");
    let line = searched(1_000, &request);
    assert!(line.starts_with("finished end 5 bound 5 ") && line.ends_with(" 0,4,0 0,2,1 65535,2,65535"), "{line}");
}

#[test]
fn c6_the_triangle() {
    let line = "finished end 3 bound 2 steps 15 reached 6 ruled 0 0,1,2 0,1,2 65535,0,1";
    assert_eq!(searched(15, &triangle(384)), line);
    assert!(searched(14, &triangle(384)).starts_with("unfinished end 3 bound 2 steps 14 "));
}

#[test]
fn c7_the_triangle_in_two_slots() {
    assert!(searched(15, &triangle(2)).starts_with("nofit end 0 bound 2 steps 15 "));
}

#[test]
fn c8_a_clash() {
    assert_eq!(checked(&[0, 2, 2], &worked(384, 0)), "refused 18 2");
}

#[test]
fn c9_the_guard_between_two_routes_that_share_a_link() {
    let demands = vec![Demand::new(1, 2, &[0, 1]), Demand::new(2, 1, &[1, 2])];
    let request = Request::new(Band::new(0, 384, 1), line(3), demands);
    assert_eq!(checked(&[0, 2], &request), "refused 18 1");
    assert_eq!(checked(&[0, 3], &request), "accepted 4");
}

#[test]
fn c10_blocks_to_frequencies() {
    assert_eq!(frequency(0, 2), "frequency -282 2 191337500");
    assert_eq!(frequency(141, 2), "frequency 0 2 193100000");
    assert_eq!(frequency(383, 1), "frequency 483 1 196118750");
}

#[test]
fn c11_frequencies_to_blocks() {
    assert_eq!(block(-282, 2), "block 0 2");
    assert_eq!(block(-283, 2), "refused 19 0");
    assert_eq!(block(-281, 2), "refused 19 0");
}

#[test]
fn c12_the_empty_file() {
    assert_eq!(read(&[]), "refused 2 0");
}

#[test]
fn lightplan_prints_its_four_lines() {
    let lines = "finished end 4 bound 4 steps 5 reached 2 ruled 0\n\
                 10 0 2 -282 191337500\n\
                 20 3 4 -277 191368750\n\
                 30 0 3 -281 191343750\n";
    assert_eq!(lightplan(&R, &Rules::right()), lines);
    assert_eq!(lightplan(&[], &Rules::right()), "refused 2 0\n");
    assert_eq!(lightplan(&[0; 8129], &Rules::right()), "refused 20 8128\n");
}

/// The numbers each call can refuse with, by op.
fn refusals_of(op: u8) -> Vec<u8> {
    let request = [4, 2, 5, 6, 8, 21, 9, 3, 7];
    let own: &[u8] = match op {
        0x01 => return vec![20, 1, 2, 3, 4, 5, 6, 8, 21, 9, 7],
        0x0A => return vec![4, 9, 17],
        0x0B => return vec![4, 19],
        0x03 => &[10],
        0x05 => &[12, 10, 13],
        0x06 => &[11, 10],
        0x07 => &[16, 17, 18],
        0x08 => &[20, 1, 2, 3, 14, 15, 17, 16, 18, 10],
        0x09 => &[16, 17, 18, 10],
        0x0C => &[10, 24],
        0x21 => &[16, 17, 18, 30],
        _ => &[],
    };
    [&request, own].concat()
}

#[test]
fn stored_cases_show_every_refusal_in_every_call() {
    let seen: Vec<(u8, String)> = stored().iter().map(|call| (frame_of(call)[0], headline(call))).collect();
    for op in (0x01..=0x0C).chain([0x21]) {
        for number in refusals_of(op) {
            let wanted = (op, format!("refused {number:>2}"));
            assert!(seen.contains(&wanted), "op {op:02X} never refuses with {number}");
        }
    }
}

#[test]
fn stored_cases_name_numbers_and_name_none() {
    let seen: Vec<(u8, String)> = stored().iter().map(|call| (frame_of(call)[0], headline(call))).collect();
    for word in ["at", "at none", "nowhere", "nowhere none"] {
        assert!(seen.contains(&(0x20, word.to_string())), "never {word}");
    }
}

/// Two links with a demand of two slots on each, and one of one slot on both.
fn two_sides() -> Request {
    let demands = vec![Demand::new(1, 2, &[0]), Demand::new(2, 2, &[1]), Demand::new(3, 1, &[0, 1])];
    Request::new(Band::new(0, 3, 0), line(2), demands)
}

#[test]
fn of_several_in_the_way_the_lowest_listing_position_is_named() {
    assert_eq!(placed_as(&[0, 1, 2], &two_sides()), "placed 3 0,0,2 65535,65535,0");
    assert_eq!(placed_as(&[1, 0, 2], &two_sides()), "placed 3 0,0,2 65535,65535,0");
    let narrow = changed(&two_sides(), |request| request.band.slots = 2);
    assert_eq!(placed_as(&[1, 0, 2], &narrow), "refused 13 2 0 43690,43690,43690 43690,43690,43690");
}

#[test]
fn what_is_placed_later_pushed_nobody_up() {
    assert_eq!(placed_as(&[1, 2, 0], &two_sides()), "placed 3 0,0,2 65535,65535,1");
    assert_eq!(placed_as(&[2, 1, 0], &two_sides()), "placed 3 1,1,0 2,2,65535");
}

#[test]
fn who_is_in_the_way_at_the_highest_start_is_named_with_13() {
    let unchanged = "43690,43690,43690 43690,43690,43690";
    assert_eq!(placed_as(&[0, 1, 2], &worked(3, 0)), format!("refused 13 2 1 {unchanged}"));
    assert_eq!(placed_as(&[2, 0, 1], &worked(3, 0)), format!("refused 13 1 2 {unchanged}"));
    let stacked = |slots| {
        let demand = |(at, &width): (usize, &i64)| Demand::new(at as i64, width, &[0]);
        Request::new(Band::new(0, slots, 1), line(1), [3, 2, 2].iter().enumerate().map(demand).collect())
    };
    assert_eq!(placed_as(&[0, 1, 2], &stacked(9)), "placed 9 0,4,7 65535,0,1");
    assert_eq!(placed_as(&[0, 1, 2], &stacked(8)), format!("refused 13 2 1 {unchanged}"));
    assert_eq!(placed_as(&[2, 1, 0], &stacked(8)), format!("refused 13 0 1 {unchanged}"));
    assert_eq!(placed_as(&[2, 0, 1], &stacked(8)), format!("refused 13 1 0 {unchanged}"));
}

#[test]
fn the_search_names_blockers_in_the_order_it_shows() {
    let line = searched(1_000, &wedged(0, 0));
    assert!(line.starts_with("finished end 5 bound 5 "), "{line}");
    assert!(line.ends_with(" 1,0,2,0,1 1,2,3,0,4 3,65535,1,65535,3"), "{line}");
    assert_eq!(placed_as(&[1, 2, 3, 0, 4], &wedged(0, 0)), "placed 5 1,0,2,0,1 3,65535,1,65535,3");
}

#[test]
fn every_buffer_needs_room_for_all_demands() {
    let lent = |room: usize| if room == 0 { "-".to_string() } else { vec!["43690"; room].join(",") };
    for short in [[0, 3], [2, 3], [3, 2], [3, 0], [2, 2]] {
        for request in [worked(384, 0), worked(3, 0)] {
            let line = said(Call::FirstFit { rooms: short, order: vec![0, 1, 2], request });
            assert_eq!(line, format!("refused 10 3 {} {}", lent(short[0]), lent(short[1])));
        }
    }
    for short in [[2, 3, 3], [3, 2, 3], [3, 3, 2], [3, 0, 0], [0, 0, 0]] {
        for limit in [0, 5] {
            let line = said(Call::Search { limit, rooms: short, request: worked(384, 0) });
            assert_eq!(line, format!("refused 10 3 {} {} {}", lent(short[0]), lent(short[1]), lent(short[2])));
        }
    }
}

#[test]
fn one_demand_beside_numbers_that_stand() {
    assert_eq!(placed_alone(5, 8, 5, &[]), "at 0 none");
    assert_eq!(placed_alone(14, 2, 3, &[(5, 8)]), "at 0 none");
    assert_eq!(placed_alone(14, 2, 4, &[(5, 8)]), "at 10 0");
    assert_eq!(placed_alone(13, 2, 4, &[(5, 8)]), "nowhere 0");
    let together = [(0, 3), (2, 6), (4, 6), (0, 6)];
    assert_eq!(placed_alone(30, 1, 2, &together), "at 7 1");
    assert_eq!(placed_alone(8, 1, 2, &together), "nowhere 1");
    assert_eq!(placed_alone(5, 1, 2, &together), "nowhere 0");
    let unmet = Standing { meets: 0, start: 0, end: 9 };
    let met = Standing { meets: 2, ..unmet.clone() };
    let one = One::new(20, 1, 2, vec![unmet.clone(), met.clone()]);
    assert_eq!(said(Call::PlaceOne { one }), "at 10 1");
    let numbers = [vec![unmet; 199], vec![met]].concat();
    let one = One { count: 65535, slots: 11, guard: 1, width: 2, numbers };
    assert_eq!(said(Call::PlaceOne { one }), "nowhere 199");
}

#[test]
fn one_demand_at_the_edges() {
    assert_eq!(placed_alone(20, 7, 4, &[(5, 5), (6, 5), (65535, 0)]), "at 0 none");
    assert_eq!(placed_alone(9, 0, 10, &[(0, 1)]), "nowhere none");
    assert_eq!(placed_alone(9, 0, 9, &[(0, 1)]), "nowhere 0");
    assert_eq!(placed_alone(9, 0, 9, &[(9, 22)]), "at 0 none");
    assert_eq!(placed_alone(0, 0, 0, &[(0, 9)]), "at 0 none");
    assert_eq!(placed_alone(0, 1, 0, &[(0, 9)]), "nowhere 0");
    assert_eq!(placed_alone(65535, 65535, 0, &[(0, 65535)]), "nowhere 0");
    assert_eq!(placed_alone(65535, 0, 1, &[(0, 65535)]), "nowhere 0");
    assert_eq!(placed_alone(65535, 0, 1, &[(0, 65534)]), "at 65534 0");
    assert_eq!(placed_alone(65535, 1, 65535, &[(0, 1)]), "nowhere 0");
    assert_eq!(placed_alone(65535, 65535, 65535, &[(65535, 65535)]), "at 0 none");
}

/// The slips about blockers, with the calls that each has to show in.
fn blocker_slips() -> Vec<(Slip, Vec<u8>)> {
    let number = |slip: Slip| SLIPS.iter().position(|&(other, _)| other == slip).unwrap_or(0);
    let between = |first: Slip, last: Slip, ops: &[u8]| -> Vec<(Slip, Vec<u8>)> {
        SLIPS[number(first)..=number(last)].iter().map(|&(slip, _)| (slip, ops.to_vec())).collect()
    };
    [
        between(Slip::BlockerOfPlan, Slip::BlockersInPlacingOrder, &[0x05, 0x06, 0x0C]),
        between(Slip::BlockersRoomLast, Slip::StuckBlockerAtZero, &[0x05]),
        between(Slip::FoundBlockersByListing, Slip::BlockersWrittenWithoutPlan, &[0x06]),
        between(Slip::OneEmptyCounts, Slip::OneTooWideNamed, &[0x20]),
    ]
    .concat()
}

#[test]
fn each_call_shows_every_slip_about_blockers() {
    for calls in [stored(), random(1, 12_000)] {
        for op in [0x05, 0x06, 0x0C, 0x20] {
            let answered = Answered::of(op, &calls);
            for (slip, ops) in blocker_slips() {
                let shown = answered.differ_under(Rules { slip, ..Rules::right() });
                assert_eq!(shown, ops.contains(&op), "op {op:02X} and {slip:?}");
            }
        }
    }
}

/// Those that only write where nothing is to be written, or refuse late, show in no answer with a plan.
const UNDER_NO_LAW: [Slip; 3] =
    [Slip::BlockersRoomLast, Slip::WritesBlockersBeforeStuck, Slip::BlockersWrittenWithoutPlan];

#[test]
fn the_laws_notice_every_other_slip_about_blockers() {
    let calls = stored();
    for (slip, _) in blocker_slips().into_iter().filter(|(slip, _)| !UNDER_NO_LAW.contains(slip)) {
        let rules = Rules { slip, ..Rules::right() };
        assert!(breaks_a_law(&calls, &rules), "{slip:?} breaks no law");
    }
}

#[test]
fn plan_rows_are_matched_by_ident() {
    let mut plan = Vec::new();
    for (ident, start) in [(20, 3), (10, 0), (30, 0)] {
        put_field(&mut plan, 4, &[0, ident, 0, start]);
    }
    assert_eq!(said(Call::ReadPlan { room: 4, file: plan, request: worked(384, 0) }), "read 4 0,3,0,43690");
}

#[test]
fn made_frames_give_their_calls_back() {
    for call in stored().iter().chain(&random(3, 2_000)) {
        let frame = frame_of(call);
        assert_eq!(call_of(frame[0], &frame[5..]).as_ref(), Some(call));
    }
}

#[test]
fn stored_frames_stay_below_a_megabyte() {
    let frames: usize = stored().iter().map(|call| frame_of(call).len()).sum();
    let lines: usize = stored().iter().map(|call| said(call.clone()).len() + 1).sum();
    assert!(frames + lines < 1_000_000, "{frames} and {lines} bytes");
}

#[test]
fn the_same_seed_makes_the_same_cases() {
    assert_eq!(random(11, 300), random(11, 300));
    assert_ne!(random(11, 300), random(12, 300));
}

#[test]
fn malformed_frames_end_the_answers() {
    for stream in malformed() {
        assert_eq!(answer_stream(&stream, &Rules::right()), ["sound", "malformed"]);
    }
}

#[test]
fn there_are_enough_variants() {
    assert!(variants::all().len() >= 30);
}

#[test]
fn requests_in_memory_read_nothing_past_their_arrays() {
    let many_links = changed(&worked(384, 0), |request| {
        request.link_count = 65;
        request.links = (0..64).map(|node| (node, node + 1)).collect();
    });
    assert_eq!(said(Call::Sound { request: many_links.clone() }), "refused 5 64");
    let looped = changed(&many_links, |request| request.links[5] = (5, 5));
    assert_eq!(said(Call::Sound { request: looped }), "refused 5 5");
}

#[test]
fn files_are_refused_field_by_field() {
    assert_eq!(read(&[0xFF]), "refused 1 0");
    assert_eq!(read(&[0xFF, 0, 0]), "refused 2 0");
    assert_eq!(read(&[0xFF, 0, 1]), "refused 1 0");
    assert_eq!(read(&R[..8]), "refused 2 8");
    assert_eq!(read(&R[..9]), "refused 1 8");
    assert_eq!(read(&[&R[..8], &R[18..]].concat()), "refused 2 8");
    assert_eq!(read(&[&R[..], &R[..8]].concat()), "refused 2 43");
    assert_eq!(read(&[&R[..], &[3, 0, 4, 0, 10, 0, 0]].concat()), "refused 3 43");
    assert_eq!(read(&[1, 0, 5, 0, 0, 0, 0, 0]), "refused 4 0");
}

#[test]
fn demands_in_memory_are_refused_one_by_one() {
    let one = Demand::new(0, 384, &[0]);
    let many = |count: usize| {
        let demands = (0..200).map(|at| Demand { ident: at, ..one.clone() }).collect();
        changed(&Request::new(Band::new(0, 384, 8), line(1), demands), |request| request.demand_count = count)
    };
    assert_eq!(bound(&many(200)), "bound 78392");
    assert_eq!(bound(&many(201)), "refused 6 200");
    assert_eq!(bound(&changed(&many(201), |request| request.demands[150].ident = 7)), "refused 8 150");
    assert_eq!(bound(&changed(&many(200), |request| request.demands[9].hops = 33)), "refused 3 9");
    let none = changed(&many(201), |request| request.link_count = 0);
    assert_eq!(bound(&none), "refused 2 0");
}

#[test]
fn no_demands_and_no_steps() {
    let empty = Request::new(Band::new(0, 1, 8), line(1), vec![]);
    let call = Call::Search { limit: 0, rooms: [0, 1, 2], request: empty.clone() };
    assert_eq!(said(call), "finished end 0 bound 0 steps 0 reached 1 ruled 0 - 43690 43690,43690");
    assert_eq!(checked(&[65535], &empty), "accepted 0");
    let long = Call::ReadPlan { room: 0, file: vec![4; 1407], request: empty };
    assert_eq!(said(long), "refused 20 1400 -");
    let none = "unfinished-empty end 0 bound 4 steps 0 reached 0 ruled 0 43690,43690,43690 43690,43690,43690 43690,43690,43690";
    assert_eq!(searched(0, &worked(384, 0)), none);
}

#[test]
fn starts_and_numbers_at_the_edges() {
    assert_eq!(checked(&[0, 65535, 2], &worked(384, 0)), "refused 17 1");
    assert_eq!(checked(&[0, 0], &worked(384, 0)), "refused 16 2");
    assert_eq!(checked(&[0, 3, 0, 65535], &worked(384, 0)), "accepted 4");
    assert_eq!(frequency(65535, 1), "refused 17 0");
    assert_eq!(frequency(384, 0), "refused 9 0");
    assert_eq!(block(-284, 0), "refused 19 0");
    assert_eq!(block(i32::MIN as i64, 2), "refused 19 0");
    assert_eq!(block(i32::MAX as i64, 1), "refused 19 0");
}
