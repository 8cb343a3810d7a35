//! Stored cases: requests given in memory, sound and not, in every call that takes one.

use super::cases::Cases;
use super::files::{bands_at_the_edges, routes_on_a_ring};
use super::shapes::*;
use crate::rates::Asked;
use crate::request::{Band, Demand, Request};
use crate::request_file::request_bytes;

pub fn memory_cases(cases: &mut Cases) {
    for request in sound_requests().iter().chain(&unsound_requests()) {
        cases.sound(request);
    }
    for request in one_of_each_fault() {
        cases.every_call(&request);
        cases.every_call_faulty(&request);
        cases.read_plan(9, &vec![4; 1401], &request);
    }
    two_faults(cases);
    written_requests(cases);
    bounds(cases);
}

fn sound_requests() -> Vec<Request> {
    let mut requests: Vec<Request> = bands_at_the_edges().into_iter().map(bare).collect();
    requests.extend([worked(384, 0), worked(3, 8), triangle(1), round(6, 5, 1), apart(64, 1), largest()]);
    let parallel = vec![(9, 8), (9, 8), (8, 7)];
    let twins = vec![Demand::new(65535, 1, &[0, 2]), Demand::new(0, 1, &[0, 2]), Demand::new(1, 1, &[1, 2])];
    requests.push(Request::new(Band::new(0, 1, 0), parallel, twins));
    for count in [199, 200] {
        requests.push(with_demand_count(worked(384, 0), count));
    }
    for hops in [1, 31, 32] {
        let request = Request::new(Band::new(0, 4, 0), line(40), vec![Demand::new(3, 1, &[0])]);
        requests.push(with_hops(request, 0, hops));
    }
    requests
}

fn unsound_requests() -> Vec<Request> {
    let mut requests = Vec::new();
    for count in [0, 1, 2, 63, 64, 65, 66, 255, 256, 65535] {
        requests.push(with_link_count(worked(384, 0), count));
    }
    for (count, looped) in [(2, 0), (2, 1), (64, 63), (65, 5), (65, 63), (65535, 0)] {
        let mut request = with_link_count(worked(384, 0), count);
        request.links[looped].1 = request.links[looped].0;
        requests.push(request);
    }
    for count in [201, 202, 456, 65535] {
        requests.push(with_demand_count(worked(384, 0), count));
    }
    requests.extend(unsound_demands());
    requests
}

fn unsound_demands() -> Vec<Request> {
    let base = worked(384, 0);
    let mut requests = Vec::new();
    for position in 0..3 {
        for width in [0, 384, 385, 65535] {
            requests.push(changed(&base, |request| request.demands[position].asked = Asked::Width(width)));
        }
        for ident in [10, 20, 30, 65535] {
            requests.push(changed(&base, |request| request.demands[position].ident = ident));
        }
        for hops in [0, 33, 34, 255] {
            requests.push(with_hops(with_link_count(base.clone(), 40), position, hops));
        }
        for route in routes_on_a_ring() {
            let demand = Demand::new(77, 1, &route);
            let mut request = Request::new(Band::new(0, 4, 0), ring(4), base.demands.clone());
            request.demands[position] = demand;
            request.demands.iter_mut().for_each(|demand| demand.asked = Asked::Width(1));
            requests.push(request);
        }
    }
    requests.push(changed(&base, |request| request.demands.iter_mut().for_each(|demand| demand.ident = 0)));
    requests
}

/// One request for each number a request can be refused with.
fn one_of_each_fault() -> Vec<Request> {
    let base = worked(384, 0);
    vec![
        with_link_count(base.clone(), 0),
        with_hops(base.clone(), 1, 0),
        changed(&base, |request| request.band.guard = 9),
        changed(&base, |request| request.links[1] = (2, 2)),
        with_demand_count(base.clone(), 201),
        changed(&base, |request| request.demands[2].route = vec![2]),
        changed(&base, |request| request.demands[1].ident = 10),
        changed(&base, |request| request.demands[0].asked = Asked::Width(385)),
        changed(&base, |request| request.demands[2].asked = Asked::Rate(1001)),
    ]
}

/// A change that brings in one fault.
type Fault = fn(&mut Request);

/// The faults by place: the band, the links, and a demand that stands in the middle.
const FAULTS: [Fault; 15] = [
    |request| request.band.n0 = 401,
    |request| request.band.slots = 0,
    |request| request.band.guard = 255,
    |request| *request = with_link_count(request.clone(), 0),
    |request| request.links[0] = (5, 5),
    |request| *request = with_link_count(request.clone(), 65),
    |request| request.demands[1].ident = 10,
    |request| request.demands[1].asked = Asked::Width(0),
    |request| request.demands[1].asked = Asked::Width(385),
    |request| request.demands[1].asked = Asked::Rate(0),
    |request| request.demands[1].asked = Asked::Rate(101),
    |request| *request = with_hops(request.clone(), 1, 0),
    |request| *request = with_hops(request.clone(), 1, 33),
    |request| request.demands[1].route[0] = 99,
    |request| *request = with_demand_count(request.clone(), 201),
];

/// Every two faults at once, in the same demand where both are a demand's, then in two demands either way round.
fn two_faults(cases: &mut Cases) {
    for (index, second) in FAULTS.iter().enumerate() {
        for first in &FAULTS[..index] {
            let mut request = worked(384, 0);
            if apply_both(&mut request, *first, *second) {
                cases.sound(&request);
            }
        }
    }
    two_demands(cases);
    repeats_before_the_count(cases);
}

/// A route that was emptied has no entry left to change, links that were taken away no end.
fn apply_both(request: &mut Request, first: Fault, second: Fault) -> bool {
    let mut alone = worked(384, 0);
    first(&mut alone);
    let no_route = alone.demands[1].route.is_empty();
    let no_link = alone.links.is_empty();
    let mut trial = worked(384, 0);
    second(&mut trial);
    let touches_route = trial.demands[1].route.first() == Some(&99);
    let touches_links = trial.links.first() == Some(&(5, 5));
    if (no_route && touches_route) || (no_link && touches_links) {
        return false;
    }
    first(request);
    second(request);
    true
}

fn two_demands(cases: &mut Cases) {
    let base = with_demand(worked(384, 0), Demand::new(40, 1, &[0]));
    let faults: [fn(&mut Demand); 5] = [
        |demand| demand.ident = 10,
        |demand| demand.asked = Asked::Width(0),
        |demand| demand.asked = Asked::Rate(99),
        |demand| {
            demand.hops = 0;
            demand.route.clear();
        },
        |demand| demand.route = vec![9],
    ];
    for one in faults {
        for other in faults {
            cases.sound(&changed(&base, |request| {
                one(&mut request.demands[1]);
                request.demands[1].hops = request.demands[1].route.len();
                other(&mut request.demands[3]);
                request.demands[3].hops = request.demands[3].route.len();
            }));
        }
    }
}

fn repeats_before_the_count(cases: &mut Cases) {
    let many = with_demand_count(worked(384, 0), 201);
    cases.sound(&changed(&many, |request| request.demands[150].ident = 1003));
    cases.sound(&changed(&many, |request| request.demands[199].asked = Asked::Width(0)));
    cases.sound(&changed(&many, |request| request.links[1] = (1, 1)));
    cases.sound(&changed(&with_link_count(many, 65), |request| request.demands[0].asked = Asked::Width(0)));
}

fn written_requests(cases: &mut Cases) {
    let full = request_bytes(&largest()).len();
    cases.write(full, &largest());
    cases.write(full - 1, &largest());
    for request in [worked(384, 0), triangle(7), bare(Band::new(-400, 1, 8)), apart(3, 384)] {
        let need = request_bytes(&request).len();
        for room in [0, 1, need - 1, need, need + 1, need + 9] {
            cases.write(room, &request);
        }
    }
    cases.write(8192, &worked(384, 0));
}

fn bounds(cases: &mut Cases) {
    for request in [worked(384, 0), worked(3, 1), triangle(384), round(5, 2, 3), apart(9, 4), largest()] {
        cases.bound(&request);
    }
    cases.bound(&bare(Band::new(0, 384, 8)));
    cases.bound(&stack(384, 8, &[384; 200]));
    cases.bound(&stack(384, 0, &[384; 171]));
    for guard in [0, 1, 8] {
        cases.bound(&stack(6, guard, &[6]));
        cases.bound(&stack(6, guard, &[2, 3, 4]));
        let last_link = vec![Demand::new(1, 3, &[0, 1]), Demand::new(2, 2, &[1]), Demand::new(3, 4, &[0])];
        cases.bound(&Request::new(Band::new(0, 6, guard), line(3), last_link));
    }
}
