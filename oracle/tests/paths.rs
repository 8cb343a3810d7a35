//! Routes meet no node twice, first and last included: worked answers in files and in memory, what chance draws, and the slips.

mod common;

use common::{breaks_a_law, read, said, Answered};
use oracle::frames::{frame_of, Call};
use oracle::make::shapes::{line, ring, triangle};
use oracle::make::{random, stored};
use oracle::request::{Band, Demand, Request};
use oracle::request_file::{read_request, request_bytes};
use oracle::rules::Rules;
use oracle::slips::{Slip, SLIPS};
use oracle::sound::test_request;

/// Links that lead along these nodes, one after the other, and a route over all of them; behind so many short routes.
fn along(nodes: &[u8], before: usize) -> Request {
    let links: Vec<(u8, u8)> = nodes.windows(2).map(|pair| (pair[0], pair[1])).collect();
    let mut demands: Vec<Demand> = (0..before).map(|at| Demand::new(at as i64, 1, &[at % links.len()])).collect();
    demands.push(Demand::new(500, 1, &(0..links.len()).collect::<Vec<_>>()));
    Request::new(Band::new(0, 9, 0), links, demands)
}

/// What a request is answered in memory and in a file.
fn answered(request: &Request) -> [String; 2] {
    [said(Call::Sound { request: request.clone() }), read(&request_bytes(request))]
}

/// 7 at the last demand, which stands behind so many short routes.
fn tail(request: &Request, before: usize) -> [String; 2] {
    let offset = 8 + 5 * request.links.len() + 8 * before;
    [format!("refused 7 {before}"), format!("refused 7 {offset}")]
}

const TAILS: [&[u8]; 11] = [
    &[0, 1, 2, 0],
    &[0, 1, 0],
    &[0, 1, 0, 2],
    &[0, 1, 2, 0, 3],
    &[0, 1, 2, 1],
    &[0, 1, 2, 3, 1],
    &[0, 1, 2, 1, 3],
    &[4, 0, 1, 2, 3, 0, 5],
    &[255, 0, 255],
    &[0, 255, 254, 255],
    &[0, 1, 2, 3, 4, 5, 6, 7, 8, 0],
];

#[test]
fn a_node_met_twice_is_7_in_files_and_in_memory() {
    for nodes in TAILS {
        for before in [0, 1, 5] {
            let request = along(nodes, before);
            assert_eq!(answered(&request), tail(&request, before), "{nodes:?}");
        }
    }
}

#[test]
fn paths_are_sound() {
    for nodes in [&[0, 1][..], &[1, 0], &[0, 1, 2, 3], &[0, 64, 128, 192], &[255, 127, 63, 191], &[7, 0, 255, 3]] {
        let request = along(nodes, 2);
        let [in_memory, in_file] = answered(&request);
        assert_eq!(in_memory, "sound", "{nodes:?}");
        assert!(in_file.starts_with("read "), "{nodes:?}: {in_file}");
    }
    assert_eq!(said(Call::Sound { request: triangle(3) }), "sound");
}

#[test]
fn a_route_of_32_links_has_33_nodes() {
    let nodes: Vec<u8> = (0..33).collect();
    assert_eq!(answered(&along(&nodes, 0))[0], "sound");
    for (one, other) in [(0, 32), (0, 31), (1, 32), (30, 32), (15, 17), (0, 2)] {
        let mut nodes = nodes.clone();
        nodes[other] = nodes[one];
        let request = along(&nodes, 1);
        assert_eq!(answered(&request), tail(&request, 1), "{one} and {other}");
    }
}

#[test]
fn all_round_a_ring_is_no_path() {
    for count in 2..=6 {
        for hops in 1..=count {
            for first in 0..count {
                let route: Vec<usize> = (first..first + hops).map(|link| link % count).collect();
                let request = Request::new(Band::new(0, 9, 0), ring(count), vec![Demand::new(7, 1, &route)]);
                let line = said(Call::Sound { request });
                assert_eq!(line, if hops < count { "sound" } else { "refused 7 0" });
            }
        }
    }
}

#[test]
fn other_demands_may_meet_the_same_nodes() {
    let demands = vec![Demand::new(1, 1, &[0, 1]), Demand::new(2, 1, &[1, 2]), Demand::new(3, 1, &[0, 1])];
    assert_eq!(said(Call::Sound { request: Request::new(Band::new(0, 9, 0), line(3), demands) }), "sound");
}

#[test]
fn faults_before_7_come_first() {
    let request = along(&[0, 1, 2, 0], 1);
    let with = |change: fn(&mut Demand)| {
        let mut request = request.clone();
        change(&mut request.demands[1]);
        answered(&request)
    };
    for (number, change) in [
        (8, (|demand| demand.ident = 0) as fn(&mut Demand)),
        (9, |demand| *demand = Demand::new(500, 10, &[0, 1, 2])),
        (21, |demand| *demand = Demand::by_rate(500, 11, &[0, 1, 2])),
    ] {
        assert_eq!(with(change), [format!("refused {number} 1"), format!("refused {number} 31")]);
    }
}

/// The request of a call, or of the file that it reads where that can be read with tails.
fn request_of(call: &Call) -> Option<Request> {
    match call {
        Call::ReadRequest { file } => {
            read_request(file, &Rules { slip: Slip::LinksComparedOnly, ..Rules::right() }).ok()
        }
        _ => call.request().cloned(),
    }
}

/// Calls that are refused for a node met twice and for nothing else.
fn bitten(calls: &[Call]) -> Vec<&Call> {
    let lenient = Rules { slip: Slip::LinksComparedOnly, ..Rules::right() };
    let bites = |call: &&Call| {
        let Some(request) = request_of(call) else { return false };
        let bites = test_request(&request, &lenient).is_ok() && test_request(&request, &Rules::right()).is_err();
        bites && said((*call).clone()).starts_with("refused 7 ")
    };
    calls.iter().filter(bites).collect()
}

#[test]
fn chance_draws_tails_and_long_paths() {
    let calls = random(1, 8_000);
    let bitten = bitten(&calls);
    for op in [0x01, 0x02, 0x04, 0x05, 0x06, 0x07, 0x0C, 0x21] {
        assert!(bitten.iter().any(|call| frame_of(call)[0] == op), "call {op:02X} never bites its tail");
    }
    assert!(bitten.len() > 60, "{} tails", bitten.len());
    let long = |call: &&Call| request_of(call).is_some_and(|request| request.demands.iter().any(|one| one.hops > 9));
    let sound = |call: &&Call| call.request().is_some_and(|request| test_request(request, &Rules::right()).is_ok());
    assert!(calls.iter().filter(sound).filter(long).count() > 10, "few long paths");
}

/// The slips about nodes met twice, with the calls that each has to show in.
fn path_slips() -> Vec<(Slip, Vec<u8>)> {
    let number = |slip: Slip| SLIPS.iter().position(|&(other, _)| other == slip).unwrap_or(0);
    let slips = SLIPS[number(Slip::TwiceAllowed)..=number(Slip::NodesOverAllRoutes)].iter();
    let calls = |slip: Slip| match slip {
        Slip::NodeTwiceInMemoryOnly => vec![0x01],
        Slip::NodeTwiceInFilesOnly => vec![0x02],
        _ => vec![0x01, 0x02],
    };
    slips.map(|&(slip, _)| (slip, calls(slip))).collect()
}

#[test]
fn files_and_memory_show_every_slip_about_paths() {
    let calls = stored();
    for op in [0x01, 0x02] {
        let answered = Answered::of(op, &calls);
        for (slip, ops) in path_slips() {
            let shown = answered.differ_under(Rules { slip, ..Rules::right() });
            assert_eq!(shown, ops.contains(&op), "op {op:02X} and {slip:?}");
        }
    }
}

/// Chance draws few routes of 32 links, and hardly any that meet a node twice at their very end.
#[test]
fn chance_shows_the_other_slips_about_paths() {
    let calls = random(1, 20_000);
    let answered = [0x01, 0x02, 0x04, 0x07, 0x21].map(|op| Answered::of(op, &calls));
    for (slip, _) in path_slips().into_iter().filter(|&(slip, _)| slip != Slip::FirstNodesCompared) {
        let rules = Rules { slip, ..Rules::right() };
        assert!(answered.iter().any(|answered| answered.differ_under(rules.clone())), "{slip:?} is not shown");
    }
}

#[test]
fn the_laws_notice_every_slip_about_paths() {
    let calls: Vec<Call> =
        stored().into_iter().filter(|call| matches!(call, Call::Sound { .. } | Call::ReadRequest { .. })).collect();
    for (slip, _) in path_slips() {
        assert!(breaks_a_law(&calls, &Rules { slip, ..Rules::right() }), "{slip:?} breaks no law");
    }
}
