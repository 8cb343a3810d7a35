//! Stored cases: routes that meet a node twice, and paths beside them that come close.

use super::cases::Cases;
use super::shapes::*;
use crate::rates::Asked::{self, Rate, Width};
use crate::request::{Band, Demand, Request};
use crate::request_file::request_bytes;

pub fn path_cases(cases: &mut Cases) {
    for request in small_nets() {
        in_file_and_memory(cases, &request);
    }
    for request in long_routes().iter().chain(&other_nodes()) {
        in_file_and_memory(cases, request);
    }
    places(cases);
    beside_other_faults(cases);
    in_every_call(cases);
}

fn in_file_and_memory(cases: &mut Cases, request: &Request) {
    cases.read(&request_bytes(request));
    cases.sound(request);
}

/// Links there and back, round, and side by side, between nodes that are given by their numbers.
fn net(nodes: [u8; 4]) -> Vec<(u8, u8)> {
    let links = [(0, 1), (1, 2), (2, 0), (1, 0), (2, 1), (0, 2), (2, 3), (3, 1), (0, 1), (3, 0)];
    links.iter().map(|&(from, to)| (nodes[from], nodes[to])).collect()
}

/// By links of the net; the nodes that are met stand behind.
const ROUTES: [&[usize]; 16] = [
    &[0, 1, 2],       // 0 1 2 0
    &[0, 3],          // 0 1 0
    &[0, 3, 8],       // 0 1 0 1, by links side by side
    &[0, 3, 5],       // 0 1 0 2: through its own start
    &[0, 1, 2, 8],    // 0 1 2 0 1: through its own start
    &[0, 1, 4],       // 0 1 2 1
    &[0, 1, 4, 3],    // 0 1 2 1 0
    &[0, 1, 6, 7],    // 0 1 2 3 1
    &[0, 1, 6, 9],    // 0 1 2 3 0
    &[0, 1, 6, 7, 3], // 0 1 2 3 1 0
    &[5, 4, 1, 6],    // 0 2 1 2 3: an inner node twice
    &[0, 1, 6],       // 0 1 2 3
    &[5, 6, 7],       // 0 2 3 1
    &[4, 3, 5],       // 2 1 0 2
    &[7, 3, 5, 6],    // 3 1 0 2 3
    &[6, 7, 3],       // 2 3 1 0
];

fn one_route(links: Vec<(u8, u8)>, asked: Asked, route: &[usize]) -> Request {
    Request::new(Band::new(0, 4, 0), links, vec![Demand::asking(7, asked, route)])
}

fn small_nets() -> Vec<Request> {
    let asked = |at: usize| if at % 2 == 0 { Width(1) } else { Rate(40) };
    let route = |(at, route): (usize, &&[usize])| one_route(net([0, 1, 2, 3]), asked(at), route);
    ROUTES.iter().enumerate().map(route).collect()
}

/// Routes of 32 links on a line of 33 nodes, and on lines that come back to one of the nodes with a link here or there.
fn long_routes() -> Vec<Request> {
    let bent = |at: usize, node: u8| {
        let mut links = line(32);
        links[at].1 = node;
        if at + 1 < links.len() {
            links[at + 1].0 = node;
        }
        one_route(links, Width(1), &(0..32).collect::<Vec<_>>())
    };
    vec![bent(31, 32), bent(31, 0), bent(31, 1), bent(31, 30), bent(30, 0), bent(30, 15), bent(1, 0), bent(15, 3)]
}

/// Nodes that differ in their high bits only, and high nodes that are met twice.
fn other_nodes() -> Vec<Request> {
    let mut requests = Vec::new();
    for nodes in [[0, 64, 128, 192], [255, 127, 63, 191], [3, 131, 67, 195], [255, 254, 0, 1]] {
        for route in [&[0, 1, 6][..], &[0, 1, 6, 9], &[5, 4, 1, 6]] {
            requests.push(one_route(net(nodes), Width(1), route));
        }
    }
    requests
}

/// The tail is the second demand's or the last one's; the others are paths over the same nodes.
fn places(cases: &mut Cases) {
    for at in [1, 3] {
        for tail in [&[0, 1, 2][..], &[0, 3], &[5, 4, 1, 6]] {
            let routes = [&[0, 1, 6][..], &[5, 6], &[4, 3], &[7]];
            let route = |position: usize| if position == at { tail } else { routes[position] };
            let demand = |position: usize| Demand::new(10 * position as i64, 1, route(position));
            in_file_and_memory(
                cases,
                &Request::new(Band::new(0, 9, 1), net([0, 1, 2, 3]), (0..4).map(demand).collect()),
            );
        }
    }
}

/// A tail and another fault in one demand, and in a later one.
fn beside_other_faults(cases: &mut Cases) {
    let tail: &[usize] = &[0, 1, 2];
    let first = Demand::new(1, 1, &[0]);
    for faulty in
        [Demand::new(1, 1, tail), Demand::new(2, 0, tail), Demand::by_rate(2, 11, tail), Demand::new(2, 10, tail)]
    {
        let demands = vec![first.clone(), faulty];
        in_file_and_memory(cases, &Request::new(Band::new(0, 9, 0), net([0, 1, 2, 3]), demands));
    }
    for route in [&[0, 1, 2, 1][..], &[0, 3, 0], &[0, 1, 2, 10], &[10, 0, 3]] {
        in_file_and_memory(cases, &one_route(net([0, 1, 2, 3]), Width(1), route));
    }
    for later in [Demand::new(1, 1, &[0]), Demand::new(3, 0, &[0]), Demand::new(3, 1, &[10])] {
        let demands = vec![first.clone(), Demand::new(2, 1, tail), later];
        in_file_and_memory(cases, &Request::new(Band::new(0, 9, 0), net([0, 1, 2, 3]), demands));
    }
}

fn in_every_call(cases: &mut Cases) {
    let round_and_back = changed(&triangle(9), |request| {
        request.demands[1].route = vec![1, 2, 0];
        request.demands[1].hops = 3;
    });
    cases.every_call(&round_and_back);
    cases.every_call_faulty(&round_and_back);
}
