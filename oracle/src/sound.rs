//! The tests of a request: its band, its links, its demands. Given in memory, the place is the listing position.

use crate::rates::{width_of, Asked};
use crate::request::{refuse, Band, Demand, Refusal, Request};
use crate::rules::Rules;
use crate::slips::Slip;

/// Tests a request given in memory: 4, links (2 if none), then the demands.
pub fn test_request(request: &Request, rules: &Rules) -> Result<(), Refusal> {
    for check in &rules.checks.memory {
        match check {
            4 => test_band(&request.band, rules)?,
            2 => test_any_link(request)?,
            5 => test_links(request, rules)?,
            _ => test_demands(request, rules)?,
        }
    }
    Ok(())
}

pub fn test_band(band: &Band, rules: &Rules) -> Result<(), Refusal> {
    if band_fault(band, rules) {
        return refuse(4, 0);
    }
    Ok(())
}

pub fn band_fault(band: &Band, rules: &Rules) -> bool {
    let limits = &rules.limits;
    band.n0 < limits.n0_least
        || band.n0 > limits.n0_most
        || band.slots < limits.slots_least
        || band.slots > limits.slots_most
        || band.guard < 0
        || band.guard > limits.guard_most
}

fn test_any_link(request: &Request) -> Result<(), Refusal> {
    if request.link_count == 0 {
        return refuse(2, 0);
    }
    Ok(())
}

/// Links one by one, each count, then ends. Nothing is read at a position past the count allowed.
fn test_links(request: &Request, rules: &Rules) -> Result<(), Refusal> {
    let most = rules.limits.links_most;
    if rules.slips(Slip::LinkCountFirst) && request.link_count > most {
        return refuse(5, most);
    }
    for position in 0..request.link_count {
        if position >= most {
            return refuse(5, position);
        }
        let link = request.links.get(position);
        if link.is_some_and(|&link| link_fault(&request.links[..position], link, rules)) {
            return refuse(5, position);
        }
    }
    Ok(())
}

/// A link from a node to itself. Two links may join the same nodes.
pub fn link_fault(before: &[(u8, u8)], link: (u8, u8), rules: &Rules) -> bool {
    if rules.slips(Slip::ParallelLinkRefused) && before.contains(&link) {
        return true;
    }
    link.0 == link.1 && !rules.slips(Slip::LoopAllowed)
}

fn test_demands(request: &Request, rules: &Rules) -> Result<(), Refusal> {
    let most = rules.limits.demands_most;
    if rules.slips(Slip::DemandCountFirst) && request.demand_count > most {
        return refuse(6, most);
    }
    for position in 0..request.demand_count {
        test_demand(request, position, rules)?;
    }
    Ok(())
}

fn test_demand(request: &Request, position: usize, rules: &Rules) -> Result<(), Refusal> {
    let rules = &*rules.instead(Slip::NodeTwiceInFilesOnly, Slip::LinksComparedOnly);
    for &number in &rules.checks.memory_demand {
        if demand_fault(number, request, position, request.demands.get(position), rules) {
            return refuse(number, memory_place(number, request, position, rules));
        }
    }
    Ok(())
}

/// Where two demands have one ident, 8 is told of the later.
fn memory_place(number: u8, request: &Request, position: usize, rules: &Rules) -> usize {
    if number == 8 && rules.slips(Slip::IdentPlaceEarlier) {
        let ident = request.demands[position].ident;
        return request.demands.iter().position(|other| other.ident == ident).unwrap_or(position);
    }
    match request.demands.get(position) {
        Some(demand) if rules.slips(Slip::PlacePerTag) => of_its_tag(&request.demands[..position], demand),
        Some(demand) if rules.slips(Slip::RateAsPlace) && number == 21 => demand.asked.number() as usize,
        _ => position,
    }
}

/// Whether the demand that would stand at `position` has the fault of that number. No demand there: only 6.
pub fn demand_fault(number: u8, request: &Request, position: usize, demand: Option<&Demand>, rules: &Rules) -> bool {
    if number == 6 {
        return counted(request, position, demand, rules) >= rules.limits.demands_most;
    }
    let Some(demand) = demand else { return false };
    match number {
        8 => ident_fault(&request.demands[..position], demand, rules),
        21 => rate_fault(&request.band, demand.asked, rules),
        9 => asked_fault(&request.band, demand.asked, rules),
        3 => demand.hops < rules.limits.hops_least || demand.hops > rules.limits.hops_most,
        _ => {
            route_fault(request, &demand.route, rules)
                || met_before(&request.demands[..position], demand, request, rules)
        }
    }
}

/// How many stand before: those by width and those by rate together.
fn counted(request: &Request, position: usize, demand: Option<&Demand>, rules: &Rules) -> usize {
    match demand {
        Some(demand) if rules.slips(Slip::CountPerTag) => of_its_tag(&request.demands[..position], demand),
        _ => position,
    }
}

fn of_its_tag(before: &[Demand], demand: &Demand) -> usize {
    before.iter().filter(|other| other.asked.tag() == demand.asked.tag()).count()
}

fn ident_fault(before: &[Demand], demand: &Demand, rules: &Rules) -> bool {
    if rules.slips(Slip::IdentOfNeighbourOnly) {
        return before.last().is_some_and(|other| other.ident == demand.ident);
    }
    if rules.slips(Slip::EqualDemandRefused)
        && before.iter().any(|other| other.width(rules) == demand.width(rules) && other.route == demand.route)
    {
        return true;
    }
    let apart = |other: &Demand| rules.slips(Slip::IdentsPerTag) && other.asked.tag() != demand.asked.tag();
    before.iter().any(|other| other.ident == demand.ident && !apart(other))
}

/// 21: a rate that gives no width.
fn rate_fault(band: &Band, asked: Asked, rules: &Rules) -> bool {
    if rules.slips(Slip::UnknownRateAgainstSlots) && width_fault(band, asked.number(), rules) {
        return false;
    }
    width_of(asked, rules).is_none()
}

/// 9, of the width that follows.
fn asked_fault(band: &Band, asked: Asked, rules: &Rules) -> bool {
    let width = width_of(asked, rules);
    match rules.slip {
        Slip::RateWidthUntested if asked.is_rate() => false,
        Slip::RateHeldAgainstSlots => width_fault(band, asked.number(), rules),
        Slip::UnknownRateAgainstSlots => width_fault(band, width.unwrap_or(asked.number()), rules),
        _ => width.is_some_and(|width| width_fault(band, width, rules)),
    }
}

pub fn width_fault(band: &Band, width: i64, rules: &Rules) -> bool {
    let most = match rules.slip {
        Slip::FullWidthRefused => band.slots - 1,
        Slip::WidthAboveAllowed => i64::MAX,
        _ => band.slots,
    };
    width < rules.limits.width_least || width > most
}

/// A route that breaks, has a link that is not listed or stands in it twice, or meets a node twice.
fn route_fault(request: &Request, route: &[usize], rules: &Rules) -> bool {
    (unlisted(request, route) && !rules.slips(Slip::UnlistedAllowed))
        || (twice(route) && !rules.slips(Slip::TwiceAllowed))
        || broken(request, route, rules)
        || node_twice(&nodes_of(request, route), rules)
}

/// Whether an earlier demand meets one of the nodes, which is no fault.
fn met_before(before: &[Demand], demand: &Demand, request: &Request, rules: &Rules) -> bool {
    let nodes = nodes_of(request, &demand.route);
    let meets = |other: &Demand| nodes_of(request, &other.route).iter().any(|node| nodes.contains(node));
    rules.slips(Slip::NodesOverAllRoutes) && before.iter().any(meets)
}

fn unlisted(request: &Request, route: &[usize]) -> bool {
    route.iter().any(|&link| link >= request.link_count)
}

fn twice(route: &[usize]) -> bool {
    (0..route.len()).any(|hop| route[..hop].contains(&route[hop]))
}

/// Whether a link leads elsewhere than to where the next begins. Unlisted links are not looked at here.
fn broken(request: &Request, route: &[usize], rules: &Rules) -> bool {
    route.windows(2).any(|pair| match (request.links.get(pair[0]), request.links.get(pair[1])) {
        (Some(&one), Some(&next)) => !joined(one, next, rules),
        _ => false,
    })
}

fn joined(one: (u8, u8), next: (u8, u8), rules: &Rules) -> bool {
    match rules.slip {
        Slip::BreakAllowed => true,
        Slip::LinksUndirected => one.1 == next.0 || one.1 == next.1 || one.0 == next.0 || one.0 == next.1,
        _ => one.1 == next.0,
    }
}

/// The nodes that a route meets, first and last included. Unlisted links are not looked at here.
pub fn nodes_of(request: &Request, route: &[usize]) -> Vec<u8> {
    let ends = route.iter().filter_map(|&link| request.links.get(link)).map(|link| link.1);
    let first = route.first().and_then(|&link| request.links.get(link)).map(|link| link.0);
    first.into_iter().chain(ends).collect()
}

/// Whether two of a route's nodes are the same. Every two are compared.
fn node_twice(nodes: &[u8], rules: &Rules) -> bool {
    let last = nodes.len().saturating_sub(1);
    let equal = |one: usize, other: usize| same_node(nodes[one], nodes[other], rules);
    let compared = |one: usize, other: usize| match rules.slip {
        Slip::TwiceAllowed | Slip::LinksComparedOnly => false,
        Slip::ClosedRouteAllowed => (one, other) != (0, last),
        Slip::ClosedRouteOnlyRefused => (one, other) == (0, last),
        Slip::FirstNodeUncompared => one > 0,
        Slip::LastNodeUncompared => other < last,
        Slip::InnerNodesUncompared => one == 0 || other == last,
        Slip::NearNodesCompared => other == one + 2,
        Slip::FirstNodesCompared => other < 32,
        _ => true,
    };
    (0..nodes.len()).any(|other| (0..other).any(|one| equal(one, other) && compared(one, other)))
}

fn same_node(one: u8, other: u8, rules: &Rules) -> bool {
    match rules.slip {
        Slip::NodesBySixBits => one % 64 == other % 64,
        Slip::NodesBySevenBits => one % 128 == other % 128,
        Slip::HighNodesUncompared => one == other && one < 128,
        _ => one == other,
    }
}
