//! Certificates: worked answers, refusals and their places, brute force over all plans, and the slips.

mod common;

use common::{breaks_a_law, said, Answered};
use oracle::brute::best_end;
use oracle::certify::Offer;
use oracle::frames::{call_of, frame_of, framed, Call};
use oracle::make::shapes::{apart, bare, changed, line, ring, round, stack, triangle, worked};
use oracle::make::{random, small, stored};
use oracle::request::{Band, Demand, Request};
use oracle::rules::Rules;
use oracle::slips::{Slip, SLIPS};

fn certified(starts: &[i64], weights: &[i64], most: i64, request: &Request) -> String {
    let offer = Offer { starts: starts.to_vec(), weights: weights.to_vec(), most };
    said(Call::Certify { counts: [starts.len(), weights.len()], offer, request: request.clone() })
}

#[test]
fn the_demands_on_a_link_are_a_certificate() {
    assert_eq!(certified(&[0, 3, 0], &[0, 1, 1], 1, &worked(384, 0)), "best 4");
    assert_eq!(certified(&[0, 3, 0], &[1, 1, 0], 1, &worked(384, 0)), "atleast 3 4");
    assert_eq!(certified(&[0, 2, 3], &[0, 1, 1], 1, &worked(384, 0)), "atleast 4 6");
    assert_eq!(certified(&[0, 4, 0], &[0, 1, 1], 1, &worked(5, 1)), "best 5");
    assert_eq!(certified(&[0, 4, 0], &[0, 2, 2], 2, &worked(5, 1)), "best 5");
}

/// Three demands that share links two by two, though no link has more than two of them.
#[test]
fn the_triangle_needs_more_than_its_bound() {
    assert_eq!(certified(&[0, 1, 2], &[1, 1, 1], 1, &triangle(3)), "best 3");
    assert_eq!(certified(&[0, 1, 2], &[1, 1, 0], 1, &triangle(3)), "atleast 2 3");
}

/// Of five round a ring two share no link and no three do: five slots in pairs take three.
#[test]
fn an_odd_ring_takes_one_more() {
    assert_eq!(certified(&[0, 1, 0, 1, 2], &[1; 5], 2, &round(5, 384, 0)), "best 3");
    assert_eq!(certified(&[0, 1, 0, 1, 2], &[1; 5], 1, &round(5, 384, 0)), "refused 30 0");
    assert_eq!(certified(&[0, 2, 0, 2, 4], &[1; 5], 2, &round(5, 384, 1)), "atleast 4 5");
    assert_eq!(certified(&[0, 1, 0, 1, 0, 1, 2], &[1; 7], 2, &round(7, 384, 0)), "refused 30 0");
}

#[test]
fn the_end_of_no_weights_is_zero() {
    for (guard, end) in [(0, "atleast 0 7"), (8, "atleast 0 23")] {
        let starts = [0, 2 + guard, 3 + 2 * guard];
        assert_eq!(certified(&starts, &[0, 0, 0], 1, &stack(60, guard, &[2, 1, 4])), end);
    }
    assert_eq!(certified(&[0, 10, 19], &[0, 1, 0], 2, &stack(60, 8, &[2, 1, 4])), "atleast 0 23");
    assert_eq!(certified(&[], &[], 1, &bare(Band::new(0, 1, 8))), "best 0");
    assert_eq!(certified(&[9], &[], 2, &bare(Band::new(0, 1, 8))), "best 0");
}

#[test]
fn another_shape_is_30_at_the_count_of_demands() {
    for weights in [&[][..], &[0, 1], &[0, 1, 1, 0], &[9, 9], &[9; 256]] {
        assert_eq!(certified(&[0, 3, 0], weights, 1, &worked(384, 0)), "refused 30 3");
    }
    for most in [0, 3, 4, 128, 255] {
        assert_eq!(certified(&[0, 3, 0], &[0, 1, 1], most, &worked(384, 0)), "refused 30 3");
        assert_eq!(certified(&[], &[], most, &bare(Band::new(0, 1, 8))), "refused 30 0");
    }
}

#[test]
fn all_weights_come_before_any_two_demands() {
    assert_eq!(certified(&[0, 3, 0], &[1, 0, 2], 1, &worked(384, 0)), "refused 30 2");
    assert_eq!(certified(&[0, 3, 0], &[0, 255, 3], 2, &worked(384, 0)), "refused 30 1");
    assert_eq!(certified(&[0, 0, 0, 0], &[2, 2, 2, 3], 2, &apart(4, 1)), "refused 30 3");
    assert_eq!(certified(&[0, 0, 0, 0], &[2, 2, 2, 2], 2, &apart(4, 1)), "refused 30 0");
}

/// Who weighs nothing is in no set; of all sets the one that begins lowest is told, pair or three.
#[test]
fn sets_are_told_by_their_first_demand() {
    let zeros = [0; 6];
    for (weights, place) in [
        ([0, 0, 1, 0, 2, 0], Some(2)),
        ([0, 0, 0, 0, 2, 1], Some(4)),
        ([1, 0, 0, 1, 0, 0], None),
        ([0, 1, 0, 1, 0, 1], Some(1)),
        ([1, 0, 0, 1, 2, 0], Some(0)),
        ([0, 0, 0, 2, 0, 0], None),
    ] {
        let line = certified(&zeros, &weights, 2, &apart(6, 1));
        match place {
            Some(place) => assert_eq!(line, format!("refused 30 {place}"), "{weights:?}"),
            None => assert!(!line.starts_with("refused"), "{weights:?}: {line}"),
        }
    }
    let routes: [&[usize]; 4] = [&[0], &[0, 1], &[2], &[3]];
    let demands = (0..4).map(|at| Demand::new(at as i64, 1, routes[at])).collect();
    let request = Request::new(Band::new(0, 9, 0), line(4), demands);
    assert_eq!(certified(&[0, 1, 2, 3], &[1, 2, 1, 1], 2, &request), "refused 30 0");
    assert_eq!(certified(&[0, 1, 2, 3], &[1, 1, 0, 1], 2, &request), "atleast 2 4");
}

#[test]
fn the_plan_is_tested_first() {
    for (weights, most) in [(&[0, 1, 1][..], 1), (&[0, 1], 1), (&[0, 1, 1], 3), (&[0, 3, 0], 2), (&[2, 0, 2], 2)] {
        assert_eq!(certified(&[0, 3], weights, most, &worked(384, 0)), "refused 16 2");
        assert_eq!(certified(&[0, 384, 0], weights, most, &worked(384, 0)), "refused 17 1");
        assert_eq!(certified(&[0, 2, 2], weights, most, &worked(384, 0)), "refused 18 2");
        let guarded = changed(&worked(384, 0), |request| request.band.guard = 9);
        assert_eq!(certified(&[0, 2, 2], weights, most, &guarded), "refused 4 0");
    }
}

#[test]
fn a_frame_holds_256_starts_and_weights() {
    let request = Request::new(Band::new(0, 9, 0), line(1), vec![Demand::new(7, 1, &[0])]);
    let raw = [0, 0, 0, 9, 0, 0, 1, 0, 1, 0, 1, 3, 0, 7, 0, 1, 1, 0];
    let body = [&[0, 2, 1, 3, 0, 0, 0, 1, 2, 2][..], &raw].concat();
    let offer = Offer { starts: vec![259, 0], weights: vec![2], most: 2 };
    let call = Call::Certify { counts: [2, 1], offer, request: request.clone() };
    assert_eq!(frame_of(&call), framed(0x21, &body));
    assert_eq!(call_of(0x21, &body), Some(call));
    let body = [&[0xFF, 0xFF][..], &[0; 512], &[1, 1], &[0; 256], &[1], &raw].concat();
    let offer = Offer { starts: vec![0; 256], weights: vec![0; 256], most: 1 };
    assert_eq!(call_of(0x21, &body), Some(Call::Certify { counts: [65_535, 257], offer, request }));
}

/// Every weighing of small requests, under both numbers: what is called best is, and no plan ends below what is told.
#[test]
fn no_plan_of_any_weighing_ends_lower() {
    let (mut best, mut at_least, mut refused) = (0, 0, 0);
    for request in requests_of_four() {
        let Some(lowest) = best_end(&request, &Rules::right()) else { continue };
        let starts = found_starts(&request);
        for at in 0..81 {
            let weights = [at / 27, at / 9 % 3, at / 3 % 3, at % 3];
            for most in [1, 2] {
                let line = certified(&starts, &weights, most, &request);
                let words: Vec<&str> = line.split(' ').collect();
                let number = |at: usize| words[at].parse::<i64>().unwrap();
                match words[0] {
                    "best" => assert_eq!(number(1), lowest, "{weights:?} of {request:?}"),
                    "atleast" => assert!(number(1) <= lowest && lowest <= number(2), "{weights:?} of {request:?}"),
                    _ => assert_eq!(number(1), 30),
                }
                best += (words[0] == "best") as usize;
                at_least += (words[0] == "atleast") as usize;
                refused += (words[0] == "refused") as usize;
            }
        }
    }
    assert!(best > 50 && at_least > 500 && refused > 500, "{best} best, {at_least} at least, {refused} refused");
}

/// Four demands on a ring of four, of some widths and routes.
fn requests_of_four() -> Vec<Request> {
    let mut requests = Vec::new();
    for at in 0..24 {
        let route = |demand: usize| {
            let first = (demand * (1 + at % 3) + at / 7) % 4;
            (first..first + 1 + (demand + at) % 3).map(|link| link % 4).collect::<Vec<_>>()
        };
        let width = |demand: usize| 1 + ((at / 2 + 3 * demand) % 3) as i64;
        let demands = (0..4).map(|demand| Demand::new(demand as i64, width(demand), &route(demand))).collect();
        requests.push(Request::new(Band::new(0, 12, (at % 2) as i64), ring(4), demands));
    }
    requests
}

/// The starts that the search finds.
fn found_starts(request: &Request) -> Vec<i64> {
    let line = said(Call::Search { limit: 100_000, rooms: [4; 3], request: request.clone() });
    let word = line.split(' ').nth(11).unwrap().to_string();
    word.split(',').map(|start| start.parse().unwrap()).collect()
}

#[test]
fn chance_finds_certificates_of_every_kind() {
    for (calls, least) in [(random(1, 8_000), 40), (small(1, 2_000), 5)] {
        let lines: Vec<String> =
            calls.iter().filter(|call| matches!(call, Call::Certify { .. })).cloned().map(said).collect();
        for word in ["best ", "atleast ", "refused 30 "] {
            let seen = lines.iter().filter(|line| line.starts_with(word)).count();
            assert!(seen >= least, "{word}: {seen}");
        }
    }
}

/// The slips about certificates.
fn certificate_slips() -> Vec<Slip> {
    let number = |slip: Slip| SLIPS.iter().position(|&(other, _)| other == slip).unwrap_or(0);
    let between = number(Slip::CertificateUnread)..=number(Slip::PartByRate);
    SLIPS[between].iter().map(|&(slip, _)| slip).collect()
}

#[test]
fn certificates_show_every_slip_about_them() {
    for calls in [stored(), random(1, 25_000)] {
        let answered = Answered::of(0x21, &calls);
        for slip in certificate_slips() {
            assert!(answered.differ_under(Rules { slip, ..Rules::right() }), "{slip:?} is not shown");
        }
    }
}

#[test]
fn the_laws_notice_every_slip_about_certificates() {
    let calls: Vec<Call> = stored().into_iter().filter(|call| matches!(call, Call::Certify { .. })).collect();
    for slip in certificate_slips() {
        assert!(breaks_a_law(&calls, &Rules { slip, ..Rules::right() }), "{slip:?} breaks no law");
    }
}
