//! Demands by bit rate: worked by hand, and what the made cases cover.

mod common;

use common::{breaks_a_law, read, said, Answered};
use oracle::answers::{answer_stream, hex};
use oracle::frames::{call_of, frame_of, framed, Call};
use oracle::lightplan::lightplan;
use oracle::make::shapes::{changed, line, with_demand, UNLISTED};
use oracle::make::{malformed, random, stored};
use oracle::rates::Asked;
use oracle::request::{Band, Demand, Request};
use oracle::request_file::request_bytes;
use oracle::rules::{Rules, RATES};
use oracle::slips::{Slip, SLIPS};
use oracle::variants;

/// The worked request R with 100 Gbit/s in the place of 2 slots and 400 Gbit/s in the place of 3.
const BY_RATE: [u8; 43] = [
    0x01, 0x00, 0x05, 0xFE, 0xE4, 0x01, 0x80, 0x00, //
    0x02, 0x00, 0x02, 0x00, 0x01, //
    0x02, 0x00, 0x02, 0x01, 0x02, //
    0x05, 0x00, 0x05, 0x00, 0x0A, 0x00, 0x64, 0x00, //
    0x03, 0x00, 0x06, 0x00, 0x14, 0x00, 0x01, 0x00, 0x01, //
    0x05, 0x00, 0x05, 0x00, 0x1E, 0x01, 0x90, 0x01,
];

fn by_rate() -> Request {
    let demands = vec![Demand::by_rate(10, 100, &[0]), Demand::new(20, 1, &[0, 1]), Demand::by_rate(30, 400, &[1])];
    Request::new(Band::new(-284, 384, 0), line(2), demands)
}

fn sound(request: &Request) -> String {
    said(Call::Sound { request: request.clone() })
}

/// The file above with one more field.
fn and(field: &[u8]) -> Vec<u8> {
    [&BY_RATE[..], field].concat()
}

/// The file above in a band of so many slots.
fn in_band(slots: u8, file: &[u8]) -> Vec<u8> {
    let mut file = file.to_vec();
    file[5..7].copy_from_slice(&[0, slots]);
    file
}

/// One demand alone on one link.
fn alone(slots: i64, asked: Asked) -> Request {
    Request::new(Band::new(0, slots, 0), line(1), vec![Demand::asking(7, asked, &[0])])
}

#[test]
fn rates_come_back_under_their_tag() {
    let hex = hex(&BY_RATE);
    assert_eq!(read(&BY_RATE), format!("read {hex}"));
    assert_eq!(said(Call::WriteRequest { room: 43, request: by_rate() }), format!("wrote 43 {hex}"));
    assert_eq!(sound(&by_rate()), "sound");
}

#[test]
fn everything_else_goes_by_the_width() {
    assert_eq!(said(Call::Bound { request: by_rate() }), "bound 9");
    let placed = Call::FirstFit { rooms: [3; 2], order: vec![0, 1, 2], request: by_rate() };
    assert_eq!(said(placed), "placed 11 0,2,3 65535,0,1");
    let searched = Call::Search { limit: 5, rooms: [3; 3], request: by_rate() };
    let line = "finished end 9 bound 9 steps 5 reached 2 ruled 0 0,8,0 0,2,1 65535,2,65535";
    assert_eq!(said(searched), line);
    for (starts, line) in [
        ([0, 8, 0], "accepted 9"),
        ([0, 7, 0], "refused 18 2"),
        ([6, 8, 0], "accepted 9"),
        ([7, 8, 0], "refused 18 1"),
        ([0, 2, 376], "accepted 384"),
        ([0, 2, 377], "refused 17 2"),
        ([383, 2, 3], "refused 17 0"),
    ] {
        assert_eq!(said(Call::Check { starts: starts.to_vec(), request: by_rate() }), line, "{starts:?}");
    }
}

#[test]
fn a_plan_of_rates_is_written_and_read() {
    let rows = "04000400 0A0000 04000400 140008 04000400 1E0000".replace(' ', "");
    let wrote = Call::WritePlan { room: 21, starts: vec![0, 8, 0], request: by_rate() };
    assert_eq!(said(wrote), format!("wrote 21 {rows}"));
    let file = [4, 0, 4, 0, 30, 0, 0, 4, 0, 4, 0, 20, 0, 8, 4, 0, 4, 0, 10, 0, 0].to_vec();
    assert_eq!(said(Call::ReadPlan { room: 3, file, request: by_rate() }), "read 9 0,8,0");
}

#[test]
fn lightplan_prints_the_widths_ends() {
    let lines = "finished end 9 bound 9 steps 5 reached 2 ruled 0\n\
                 10 0 2 -282 191337500\n\
                 20 8 9 -267 191431250\n\
                 30 0 8 -276 191375000\n";
    assert_eq!(lightplan(&BY_RATE, &Rules::right()), lines);
    assert_eq!(lightplan(&in_band(7, &BY_RATE), &Rules::right()), "refused 9 35\n");
}

#[test]
fn the_table_gives_the_widths() {
    for (rate, width) in [(10, 1), (40, 1), (100, 2), (400, 8), (1000, 20)] {
        for slots in [width, 384] {
            let request = alone(slots, Asked::Rate(rate));
            assert_eq!(said(Call::Bound { request }), format!("bound {width}"));
        }
        if width > 1 {
            assert_eq!(sound(&alone(width - 1, Asked::Rate(rate))), "refused 9 0");
        }
    }
    assert_eq!(RATES.len(), 5);
}

#[test]
fn no_other_rate_is_taken() {
    let listed = [10, 40, 100, 400, 1000];
    for rate in (0..=65535).filter(|rate| !listed.contains(rate)) {
        assert_eq!(sound(&alone(384, Asked::Rate(rate))), "refused 21 0", "{rate}");
    }
    for rate in UNLISTED {
        let [high, low] = (rate as u16).to_be_bytes();
        assert_eq!(read(&and(&[5, 0, 5, 0, 40, high, low, 0])), "refused 21 43", "{rate}");
        assert_eq!(read(&in_band(8, &and(&[5, 0, 5, 0, 40, high, low, 0]))), "refused 21 43", "{rate}");
    }
}

#[test]
fn equal_widths_are_different_requests() {
    let front = "01000500000001000200020001";
    for (asked, field) in [
        (Asked::Width(1), "0300050007000100"),
        (Asked::Rate(10), "0500050007000A00"),
        (Asked::Rate(40), "0500050007002800"),
    ] {
        let wrote = said(Call::WriteRequest { room: 21, request: alone(1, asked) });
        assert_eq!(wrote, format!("wrote 21 {front}{field}"));
        assert_eq!(read(&request_bytes(&alone(1, asked))), format!("read {front}{field}"));
    }
}

#[test]
fn a_05_is_tested_in_turn_in_a_file() {
    for (field, line) in [
        (&[5, 0, 5, 0, 40, 0, 10, 0][..], "read"),
        (&[5, 0, 6, 0, 40, 0, 11, 0], "refused 1 43"),
        (&[5, 0, 4, 0, 10, 0, 11], "refused 3 43"),
        (&[5, 0, 5, 0, 10, 0, 11, 9], "refused 8 43"),
        (&[5, 0, 5, 0, 20, 0, 11, 9], "refused 8 43"),
        (&[3, 0, 5, 0, 30, 0, 0, 9], "refused 8 43"),
        (&[5, 0, 5, 0, 40, 0, 11, 9], "refused 21 43"),
        (&[5, 0, 5, 0, 40, 0, 0, 9], "refused 21 43"),
        (&[5, 0, 5, 0, 40, 3, 0xE8, 9], "refused 9 43"),
        (&[5, 0, 5, 0, 40, 1, 0x90, 9], "refused 7 43"),
        (&[3, 0, 5, 0, 40, 0, 0, 9], "refused 9 43"),
    ] {
        let said = read(&in_band(19, &and(field)));
        assert_eq!(said.split(' ').next() == Some("read"), line == "read", "{field:?}: {said}");
        assert!(line == "read" || said == line, "{field:?}: {said}");
    }
}

#[test]
fn a_05_is_as_long_as_a_03() {
    let front = |links: usize| {
        let mut file = BY_RATE[..8].to_vec();
        (0..links as u8).for_each(|node| file.extend([2, 0, 2, node, node + 1]));
        file
    };
    for (length, taken) in [(0, false), (3, false), (4, false), (5, true), (36, true), (37, false)] {
        for number in [10, 11] {
            let body: Vec<u8> = [0, 1, 0, number].into_iter().chain(0..40).take(length as usize).collect();
            let said = read(&[&front(40)[..], &[5, 0, length], &body].concat());
            match (taken, number) {
                (false, _) => assert_eq!(said, "refused 3 208"),
                (true, 11) => assert_eq!(said, "refused 21 208"),
                _ => assert!(said.starts_with("read "), "{said}"),
            }
        }
    }
}

#[test]
fn a_05_stands_where_a_03_may() {
    let (band, links, rate, width) = (&BY_RATE[..8], &BY_RATE[8..18], &BY_RATE[18..26], &BY_RATE[26..35]);
    let link = &links[..5];
    for (fields, line) in [
        (vec![rate], "refused 2 0"),
        (vec![band, rate], "refused 2 8"),
        (vec![band, rate, links], "refused 2 8"),
        (vec![band, link, rate, link], "refused 2 21"),
        (vec![band, links, rate, width, link], "refused 2 35"),
        (vec![band, links, width, rate, link], "refused 2 35"),
        (vec![band, link, rate, band], "refused 2 21"),
        (vec![band, link, rate, &[4, 0, 4, 0, 10, 0, 0]], "refused 2 21"),
        (vec![band, link, rate, &[6, 0, 4, 0, 10, 0, 0]], "refused 2 21"),
    ] {
        assert_eq!(read(&fields.concat()), line);
    }
    for fields in [[band, link, rate, &[]], [band, links, rate, width], [band, links, width, rate]] {
        assert_eq!(read(&fields.concat()), format!("read {}", hex(&fields.concat())));
    }
}

#[test]
fn a_demand_by_rate_is_tested_in_turn_in_memory() {
    let narrow = changed(&by_rate(), |request| request.band.slots = 8);
    for (ident, rate, route, line) in [
        (10, 11, &[][..], "refused 8 3"),
        (20, 0, &[9], "refused 8 3"),
        (40, 11, &[], "refused 21 3"),
        (40, 0, &[9], "refused 21 3"),
        (40, 65535, &[0], "refused 21 3"),
        (40, 1000, &[], "refused 9 3"),
        (40, 1000, &[9], "refused 9 3"),
        (40, 400, &[], "refused 3 3"),
        (40, 400, &[9], "refused 7 3"),
        (40, 400, &[0], "sound"),
    ] {
        assert_eq!(sound(&with_demand(narrow.clone(), Demand::by_rate(ident, rate, route))), line, "{ident} {rate}");
    }
}

#[test]
fn two_hundred_run_over_both_tags() {
    let mut file = BY_RATE[..18].to_vec();
    for ident in 0..200 {
        let (tag, number) = if ident % 2 == 0 { (3, 1) } else { (5, 10) };
        file.extend([tag, 0, 5, 0, ident, 0, number, 0]);
    }
    assert_eq!(read(&file), format!("read {}", hex(&file)));
    for last in [[5, 0, 5, 1, 0, 0, 10, 0], [3, 0, 5, 1, 0, 0, 1, 0], [5, 0, 5, 0, 0, 0, 11, 9]] {
        assert_eq!(read(&[&file[..], &last].concat()), "refused 6 1618");
    }
    let demand = |ident: i64| match ident % 2 {
        0 => Demand::new(ident, 1, &[0]),
        _ => Demand::by_rate(ident, 10, &[0]),
    };
    let request = Request::new(Band::new(0, 384, 0), line(1), (0..200).map(demand).collect());
    assert_eq!(said(Call::Bound { request: request.clone() }), "bound 200");
    let more = changed(&request, |request| request.demand_count = 201);
    assert_eq!(sound(&more), "refused 6 200");
    assert_eq!(sound(&changed(&more, |request| request.demands[199].asked = Asked::Rate(1))), "refused 21 199");
    assert_eq!(sound(&changed(&more, |request| request.demands[198].ident = 1)), "refused 8 198");
}

/// A request of one link and two demands: 10 Gbit/s, then what the tag makes of the number 1.
fn body(tag: u8) -> Vec<u8> {
    let front = [0, 0, 0, 9, 0, 0, 1, 0, 1, 0, 2];
    [&front[..], &[5, 0, 7, 0, 10, 1, 0], &[tag, 0, 8, 0, 1, 1, 0]].concat()
}

#[test]
fn a_frame_has_the_tag_in_front_of_each_demand() {
    let demands = vec![Demand::by_rate(7, 10, &[0]), Demand::new(8, 1, &[0])];
    let request = Request::new(Band::new(0, 9, 0), line(1), demands);
    assert_eq!(frame_of(&Call::Sound { request: request.clone() }), framed(0x02, &body(3)));
    assert_eq!(call_of(0x02, &body(3)), Some(Call::Sound { request }));
    let line = |tag: u8| answer_stream(&framed(0x02, &body(tag)), &Rules::right());
    assert_eq!(line(3), ["sound"]);
    assert_eq!(line(5), ["refused 21 1"]);
    for tag in (0..=255).filter(|tag| ![3, 5].contains(tag)) {
        assert_eq!(line(tag), ["malformed"], "{tag}");
    }
}

#[test]
fn wrong_tags_are_among_the_malformed_streams() {
    let good = frame_of(&Call::Sound { request: oracle::make::shapes::worked(384, 0) });
    let broken: Vec<Vec<u8>> = malformed().iter().map(|stream| stream[good.len()..].to_vec()).collect();
    for op in (0x02..=0x09).chain([0x0C]) {
        for tag in [0x00, 0x02, 0x04, 0x06] {
            let mended = |frame: &Vec<u8>| {
                frame[0] == op && frame.len() > 5 && (5..frame.len()).any(|at| frame[at] == tag && mends(frame, at))
            };
            assert!(broken.iter().any(mended), "no tag {tag:02X} in op {op:02X}");
        }
    }
}

/// Whether the stream is answered to its end once this byte is a demand's tag.
fn mends(stream: &[u8], at: usize) -> bool {
    [3, 5].iter().any(|&tag| {
        let mut mended = stream.to_vec();
        mended[at] = tag;
        answer_stream(&mended, &Rules::right()).last().is_some_and(|line| line != "malformed")
    })
}

/// The slips about rates, with the calls that each has to show in.
fn rate_slips() -> Vec<(Slip, Vec<u8>)> {
    let number = |slip: Slip| SLIPS.iter().position(|&(other, _)| other == slip).unwrap_or(0);
    let between = |first: Slip, last: Slip, ops: &[u8]| -> Vec<(Slip, Vec<u8>)> {
        SLIPS[number(first)..=number(last)].iter().map(|&(slip, _)| (slip, ops.to_vec())).collect()
    };
    let all: Vec<u8> = (0x01..=0x09).chain([0x0C]).collect();
    [
        between(Slip::RateZeroByWidth, Slip::RateLowByte, &all),
        between(Slip::RateEndsNoLinks, Slip::RateLongRoute, &[0x01]),
        between(Slip::IdentsPerTag, Slip::IdentsPerTag, &[0x01, 0x02]),
        between(Slip::CountPerTag, Slip::CountPerTag, &[0x01]),
        between(Slip::PlacePerTag, Slip::PlacePerTag, &all[1..]),
        between(Slip::RateAsPlace, Slip::RateAsPlace, &all),
        between(Slip::RateWrittenAsWidth, Slip::RatesWrittenLast, &[0x01, 0x03]),
        between(Slip::BoundByRate, Slip::BoundByRate, &[0x04, 0x06]),
        between(Slip::EndByRate, Slip::EndByRate, &[0x07, 0x08, 0x09]),
    ]
    .concat()
}

/// 201 demands in a file come too rarely by chance.
const RARE: Slip = Slip::CountPerTag;

#[test]
fn each_call_shows_the_slips_about_rates() {
    for (calls, by_chance) in [(stored(), false), (random(1, 25_000), true)] {
        for op in (0x01..=0x09).chain([0x0C]) {
            let answered = Answered::of(op, &calls);
            for (slip, _) in rate_slips().into_iter().filter(|(_, ops)| ops.contains(&op)) {
                if by_chance && slip == RARE {
                    continue;
                }
                let rules = Rules { slip, ..Rules::right() };
                assert!(answered.differ_under(rules), "op {op:02X} and {slip:?}");
            }
        }
    }
}

#[test]
fn each_call_shows_every_other_table() {
    for calls in [stored(), random(1, 25_000)] {
        for op in (0x04..=0x09).chain([0x0C]) {
            let answered = Answered::of(op, &calls);
            for (at, (rate, width)) in RATES.into_iter().enumerate() {
                for wrong in [width - 1, width + 1] {
                    let mut rules = Rules::right();
                    rules.rates[at].1 = wrong;
                    assert!(answered.differ_under(rules), "op {op:02X}: {rate} gives {wrong}");
                }
            }
        }
    }
}

/// Those that refuse what is right or take what is wrong, and no more, break no law about answers.
const UNDER_A_LAW: [Slip; 11] = [
    Slip::RateHeldAgainstSlots,
    Slip::RateWidthUntested,
    Slip::RateAsWidth,
    Slip::RateLowByte,
    Slip::IdentsPerTag,
    Slip::PlacePerTag,
    Slip::RateWrittenAsWidth,
    Slip::RateWrittenByWidth,
    Slip::RatesWrittenLast,
    Slip::BoundByRate,
    Slip::EndByRate,
];

#[test]
fn the_laws_notice_slips_about_rates() {
    let calls = stored();
    for slip in UNDER_A_LAW {
        let rules = Rules { slip, ..Rules::right() };
        assert!(breaks_a_law(&calls, &rules), "{slip:?} breaks no law");
    }
    for variant in variants::all().iter().filter(|variant| variant.rules.rates.len() == RATES.len()) {
        if variant.rules.rates != RATES {
            assert!(breaks_a_law(&calls, &variant.rules), "{} breaks no law", variant.name);
        }
    }
}
