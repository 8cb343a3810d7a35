//! Whole groups: worked answers, the cut, refusals, brute force where there are as many groups as demands, and the slips.

mod common;

use common::{breaks_a_law, quick, said, Answered};
use oracle::brute::best_end;
use oracle::frames::{call_of, frame_of, framed, Call};
use oracle::groups::cut;
use oracle::make::shapes::{apart, bare, changed, line, nested, stack, triangle, wedged, worked};
use oracle::make::{random, small, stored};
use oracle::orders::orders;
use oracle::request::{Band, Demand, Request};
use oracle::rules::Rules;
use oracle::slips::{Slip, SLIPS};

/// Counts that are never taken.
const ABOVE_EIGHT: [usize; 6] = [9, 256, 65_536, 65_538, 2_147_483_648, 4_294_967_295];

fn grouped(count: usize, request: &Request) -> String {
    grouped_in([request.demand_count; 2], count, request)
}

fn grouped_in(rooms: [usize; 2], count: usize, request: &Request) -> String {
    said(Call::Groups { rooms, count, request: request.clone() })
}

/// A buffer of so many entries, as it was.
fn lent(room: usize) -> String {
    if room == 0 {
        return "-".to_string();
    }
    vec!["43690"; room].join(",")
}

#[test]
fn the_worked_request_in_groups() {
    assert_eq!(grouped(1, &worked(384, 0)), "grouped 6 0 0,2,3 65535,0,1");
    assert_eq!(grouped(2, &worked(384, 0)), "grouped 4 1,0 0,3,0 65535,2,65535");
    assert_eq!(grouped(3, &worked(384, 0)), "grouped 4 0,2,1 0,3,0 65535,2,65535");
    assert_eq!(grouped(3, &worked(384, 1)), "grouped 5 0,2,1 0,4,0 65535,2,65535");
    assert_eq!(grouped(3, &triangle(384)), "grouped 3 0,1,2 0,1,2 65535,0,1");
    assert_eq!(grouped_in([4, 5], 1, &worked(6, 0)), "grouped 6 0 0,2,3,43690 65535,0,1,43690,43690");
}

#[test]
fn an_order_that_does_not_fit_is_passed_over() {
    assert_eq!(grouped(2, &worked(4, 0)), "grouped 4 1,0 0,3,0 65535,2,65535");
    assert_eq!(grouped(3, &worked(5, 0)), "grouped 4 0,2,1 0,3,0 65535,2,65535");
    assert_eq!(grouped(5, &wedged(0, 0)), "grouped 5 1,2,3,0,4 1,0,2,0,1 3,65535,1,65535,3");
}

#[test]
fn where_every_order_is_refused_nothing_is_written() {
    let unchanged = format!("nothing {} {}", lent(3), lent(3));
    assert_eq!(grouped(1, &worked(5, 0)), unchanged);
    for count in 1..=3 {
        assert_eq!(grouped(count, &worked(3, 0)), unchanged);
        assert_eq!(grouped(count, &triangle(2)), unchanged);
    }
    assert_eq!(grouped_in([3, 4], 2, &worked(3, 0)), format!("nothing {} {}", lent(3), lent(4)));
}

#[test]
fn of_equal_orders_the_first_is_given() {
    assert_eq!(grouped(3, &apart(3, 1)), "grouped 1 0,1,2 0,0,0 65535,65535,65535");
    assert_eq!(grouped(3, &stack(6, 0, &[1, 2, 3])), "grouped 6 0,1,2 0,1,3 65535,0,1");
    assert_eq!(
        grouped(8, &apart(8, 1)),
        format!("grouped 1 0,1,2,3,4,5,6,7 {}0 {}65535", "0,".repeat(7), "65535,".repeat(7))
    );
}

#[test]
fn groups_are_consecutive_and_the_first_are_longer() {
    let rules = Rules::right();
    assert_eq!(cut(7, 3, &rules), [vec![0, 1, 2], vec![3, 4], vec![5, 6]]);
    assert_eq!(cut(8, 3, &rules), [vec![0, 1, 2], vec![3, 4, 5], vec![6, 7]]);
    assert_eq!(cut(3, 3, &rules), [[0], [1], [2]]);
    for demands in 1..=200 {
        for count in 1..=demands.min(8) {
            let groups = cut(demands, count, &rules);
            let lengths: Vec<usize> = groups.iter().map(Vec::len).collect();
            assert_eq!(groups.concat(), (0..demands).collect::<Vec<_>>());
            assert!(
                lengths.is_sorted_by(|one, next| one >= next) && lengths[0] - lengths[count - 1] <= 1,
                "{lengths:?}"
            );
            assert_eq!(lengths.len(), count);
        }
    }
}

/// The worked routes and widths, the third demand at a listing position of its own; all others have a link for themselves.
fn spread(demands: usize, third: usize) -> Request {
    let demand = |at: usize| match at {
        0 => Demand::new(0, 2, &[0]),
        1 => Demand::new(1, 1, &[0, 1]),
        _ if at == third => Demand::new(2, 3, &[1]),
        _ => Demand::new(10 + at as i64, 1, &[at + 2]),
    };
    Request::new(Band::new(0, 384, 0), line(demands + 2), (0..demands).map(demand).collect())
}

#[test]
fn the_end_shows_who_is_in_one_group() {
    for (demands, count, first) in [(5, 2, 3), (7, 2, 4), (7, 3, 3), (8, 3, 3), (11, 4, 3), (17, 5, 4)] {
        for third in 2..demands {
            let together = third < first;
            let end = if together { "grouped 6 0,1" } else { "grouped 4 " };
            let line = grouped(count, &spread(demands, third));
            assert!(line.starts_with(end), "{demands} in {count}, {third}: {line}");
        }
    }
}

#[test]
fn a_count_outside_1_to_8_or_above_k_is_24() {
    for count in [0, 4, 8].into_iter().chain(ABOVE_EIGHT) {
        assert_eq!(grouped(count, &worked(384, 0)), format!("refused 24 {count} {} {}", lent(3), lent(3)));
    }
    for count in [0, 1, 2, 8].into_iter().chain(ABOVE_EIGHT) {
        assert_eq!(grouped(count, &bare(Band::new(0, 384, 0))), format!("refused 24 {count} - -"));
    }
    for (demands, count) in [(8, 9), (9, 9), (9, 10), (200, 9), (200, 200), (200, 201)] {
        let line = grouped(count, &stack(384, 0, &vec![1; demands]));
        assert_eq!(line, format!("refused 24 {count} {} {}", lent(demands), lent(demands)));
    }
    for demands in [8, 9, 20] {
        assert!(grouped(8, &stack(1, 0, &vec![1; demands])).starts_with("nothing "));
    }
}

#[test]
fn the_request_then_room_then_the_count() {
    for rooms in [[0, 3], [2, 3], [3, 2], [3, 0], [2, 2], [0, 0]] {
        for count in [0, 2, 4, 9] {
            for request in [worked(384, 0), worked(3, 0)] {
                let line = format!("refused 10 3 {} {}", lent(rooms[0]), lent(rooms[1]));
                assert_eq!(grouped_in(rooms, count, &request), line);
            }
            let guarded = changed(&worked(384, 0), |request| request.band.guard = 9);
            let line = format!("refused 4 0 {} {}", lent(rooms[0]), lent(rooms[1]));
            assert_eq!(grouped_in(rooms, count, &guarded), line);
        }
    }
}

#[test]
fn orders_are_listed_by_the_first_place_where_they_differ() {
    assert_eq!(orders(3), [[0, 1, 2], [0, 2, 1], [1, 0, 2], [1, 2, 0], [2, 0, 1], [2, 1, 0]]);
    for count in 0..=6 {
        assert_eq!(orders(count).len(), (1..=count).product::<usize>());
        assert!(orders(count).is_sorted_by(|one, next| one < next));
    }
}

#[test]
fn a_frame_has_both_rooms_and_the_count() {
    let request = Request::new(Band::new(0, 9, 0), line(1), vec![Demand::new(7, 1, &[0])]);
    let raw = [0, 0, 0, 9, 0, 0, 1, 0, 1, 0, 1, 3, 0, 7, 0, 1, 1, 0];
    let body = [&[0, 2, 1, 3, 0x80, 0, 1, 2][..], &raw].concat();
    let call = Call::Groups { rooms: [2, 259], count: 0x8000_0102, request };
    assert_eq!(frame_of(&call), framed(0x0C, &body));
    assert_eq!(call_of(0x0C, &body), Some(call));
}

/// The words of what groups of one demand each are answered, if the search is answered so.
fn as_searched(request: &Request) -> Vec<String> {
    let count = request.demand_count;
    let line = said(Call::Search { limit: u32::MAX as u64, rooms: [count; 3], request: request.clone() });
    let words: Vec<&str> = line.split(' ').collect();
    let told = match words[0] {
        "finished" => vec!["grouped", words[2], words[12], words[11], words[13]],
        "nofit" => vec!["nothing", words[11], words[13]],
        _ => vec![],
    };
    told.into_iter().map(str::to_string).collect()
}

#[test]
fn as_many_groups_as_demands_are_the_search_and_the_best_of_all_plans() {
    let (mut fitting, mut empty) = (0, 0);
    for call in small(5, 1_500) {
        let Some(request) = call.request().filter(|request| request.demand_count > 0) else { continue };
        let line = grouped(request.demand_count, request);
        assert_eq!(line.split(' ').collect::<Vec<_>>(), as_searched(request));
        match best_end(request, &Rules::right()) {
            Some(end) => assert!(line.starts_with(&format!("grouped {end} ")), "{line}"),
            None => assert!(line.starts_with("nothing "), "{line}"),
        }
        fitting += line.starts_with("grouped ") as usize;
        empty += line.starts_with("nothing ") as usize;
    }
    assert!(fitting > 500 && empty > 100, "{fitting} fit, {empty} do not");
    for request in [nested(7, 12), nested(8, 16), nested(8, 11), nested(8, 9)] {
        assert_eq!(grouped(request.demand_count, &request).split(' ').collect::<Vec<_>>(), as_searched(&request));
    }
}

#[test]
fn every_count_of_groups_is_among_the_cases() {
    for calls in [stored(), random(1, 20_000)] {
        for wanted in 1..=8 {
            let of_count = |call: &&Call| matches!(call, Call::Groups { count, .. } if *count == wanted);
            let lines: Vec<String> = calls.iter().filter(of_count).cloned().map(said).collect();
            let seen = |word: &str| lines.iter().any(|line| line.starts_with(word));
            assert!(seen("grouped "), "{wanted} groups never fit");
            assert!(wanted > 5 || seen("nothing "), "{wanted} groups always fit");
        }
    }
}

/// The slips about groups.
fn group_slips() -> Vec<Slip> {
    let number = |slip: Slip| SLIPS.iter().position(|&(other, _)| other == slip).unwrap_or(0);
    let between = number(Slip::GroupCountLowByte)..=number(Slip::GroupsFromOne);
    SLIPS[between].iter().map(|&(slip, _)| slip).collect()
}

#[test]
fn groups_show_every_slip_about_them() {
    for calls in [stored(), random(1, 12_000)] {
        let answered = Answered::of(0x0C, &calls);
        for slip in group_slips() {
            assert!(answered.differ_under(Rules { slip, ..Rules::right() }), "{slip:?} is not shown");
        }
    }
}

/// Those that only refuse otherwise show in no answer with a plan.
const UNDER_NO_LAW: [Slip; 5] = [
    Slip::GroupPlaceLimit,
    Slip::GroupPlaceDemands,
    Slip::GroupPlaceZero,
    Slip::GroupRoomForPlanOnly,
    Slip::GroupBlockersRoomLast,
];

#[test]
fn the_laws_notice_every_other_slip_about_groups() {
    let calls: Vec<Call> =
        stored().into_iter().filter(|call| matches!(call, Call::Groups { .. })).filter(quick).collect();
    for slip in group_slips() {
        let rules = Rules { slip, ..Rules::right() };
        assert_eq!(breaks_a_law(&calls, &rules), !UNDER_NO_LAW.contains(&slip), "{slip:?}");
    }
}
