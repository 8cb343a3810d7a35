//! The bound: over all links, the largest of the widths on the link and the guards between them.

use crate::request::{Demand, Refusal, Request};
use crate::rules::Rules;
use crate::slips::Slip;
use crate::sound::test_request;

pub fn tested_bound(request: &Request, rules: &Rules) -> Result<i64, Refusal> {
    test_request(request, rules)?;
    Ok(bound(request, rules))
}

pub fn bound(request: &Request, rules: &Rules) -> i64 {
    let loads = (0..request.link_count).map(|link| link_load(request, link, rules));
    let most = match rules.slip {
        Slip::BoundAddsLinks => loads.sum(),
        _ => loads.max().unwrap_or(0),
    };
    match rules.slip {
        Slip::BoundWraps => most % 65536,
        Slip::BoundClipped => most.min(request.band.slots),
        _ => most,
    }
}

/// What the demands on a link need side by side: their widths and a guard between each two; nothing if there are none.
fn link_load(request: &Request, link: usize, rules: &Rules) -> i64 {
    let on_it: Vec<_> = request.demands.iter().filter(|demand| holds(&demand.route, link, rules)).collect();
    let count = on_it.len() as i64;
    if count == 0 && !rules.slips(Slip::UnusedLinkLessGuard) {
        return 0;
    }
    let widths: i64 = on_it.iter().map(|demand| added(demand, rules)).sum();
    let guards = match rules.slip {
        Slip::BoundGuardEach => count,
        Slip::BoundNoGuard => 0,
        _ => count - 1,
    };
    widths + request.band.guard * guards
}

/// What a demand adds: its width, whatever it asks for.
fn added(demand: &Demand, rules: &Rules) -> i64 {
    if rules.slips(Slip::BoundByRate) {
        return demand.asked.number();
    }
    demand.width(rules)
}

fn holds(route: &[usize], link: usize, rules: &Rules) -> bool {
    if rules.slips(Slip::BoundFirstLinkOnly) {
        return route.first() == Some(&link);
    }
    route.contains(&link)
}
