//! What the rules promise about routes, held on the answers: a route of so many links has one node more, all different.

use crate::fields::{whole_fields, Field};
use crate::rates::{BY_RATE, BY_WIDTH};
use crate::request::Request;
use crate::request_file::read_request;
use crate::rules::Rules;
use crate::sound::test_request;
use std::collections::HashSet;

/// A sound request has paths only, no link twice, and no two routes of the same links in another sequence. Where 7 is told, the
/// routes before that demand are paths and its own is none. `None` for other refusals.
pub fn paths_hold(request: &Request, rules: &Rules) -> Option<bool> {
    let route = |position: usize| request.demands.get(position).map_or(&[][..], |demand| &demand.route);
    match test_request(request, rules) {
        Ok(()) => {
            let routes: Vec<&[usize]> = (0..request.demand_count).map(route).collect();
            Some(routes.iter().all(|route| is_path(&request.links, route)) && told_by_their_links(&routes))
        }
        Err(refusal) if refusal.number == 7 => {
            let before = (0..refusal.place).all(|position| is_path(&request.links, route(position)));
            Some(before && !is_path(&request.links, route(refusal.place)))
        }
        Err(_) => None,
    }
}

/// The same for a file: what is read has paths only, and where 7 is told the field there has a route that is none.
pub fn read_paths_hold(file: &[u8], rules: &Rules) -> Option<bool> {
    match read_request(file, rules) {
        Ok(request) => Some(request.demands.iter().all(|demand| is_path(&request.links, &demand.route))),
        Err(refusal) if refusal.number == 7 => Some(first_without_path(file, refusal.place) == Some(refusal.place)),
        Err(_) => None,
    }
}

/// The offset of the first demand's field, of those up to a place, whose route is no path.
fn first_without_path(file: &[u8], place: usize) -> Option<usize> {
    let fields: Vec<Field> = whole_fields(file).into_iter().filter(|field| field.offset <= place).collect();
    let links: Vec<(u8, u8)> =
        fields.iter().filter(|field| field.tag == 2).map(|field| (field.body[0], field.body[1])).collect();
    let route = |body: &[u8]| body.get(4..).unwrap_or(&[]).iter().map(|&link| link as usize).collect::<Vec<_>>();
    let mut demands = fields.iter().filter(|field| field.tag == BY_WIDTH || field.tag == BY_RATE);
    demands.find(|field| !is_path(&links, &route(field.body))).map(|field| field.offset)
}

/// Whether each link is listed and sets out from where the one before it leads to, and as many different nodes are met as there
/// are links, and one.
fn is_path(links: &[(u8, u8)], route: &[usize]) -> bool {
    let Some(listed) = route.iter().map(|&link| links.get(link)).collect::<Option<Vec<_>>>() else { return false };
    let joined = listed.windows(2).all(|pair| pair[0].1 == pair[1].0);
    let nodes: HashSet<u8> = listed.iter().flat_map(|link| [link.0, link.1]).collect();
    joined && nodes.len() == route.len() + 1
}

/// Two routes with the same set of links are the same route, and none has a link twice.
fn told_by_their_links(routes: &[&[usize]]) -> bool {
    let mut by_links: HashSet<(Vec<usize>, &[usize])> = HashSet::new();
    for route in routes {
        let mut links = route.to_vec();
        links.sort();
        if links.windows(2).any(|pair| pair[0] == pair[1]) {
            return false;
        }
        by_links.insert((links, route));
    }
    let sets: HashSet<&Vec<usize>> = by_links.iter().map(|(links, _)| links).collect();
    sets.len() == by_links.len()
}
