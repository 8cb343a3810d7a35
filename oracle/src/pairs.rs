//! Two demands at two starts, told apart by the stated inequality.

use crate::request::Request;
use crate::rules::Rules;

/// Whether two demands share a link.
pub fn share(request: &Request, one: usize, other: usize) -> bool {
    route(request, one).iter().any(|link| route(request, other).contains(link))
}

/// Whether two demands at these starts share a link and neither is over, its guard too, before the other begins.
pub fn clash(request: &Request, (one, start): (usize, i64), (other, other_start): (usize, i64), rules: &Rules) -> bool {
    let end = start + request.width(one, rules);
    let other_end = other_start + request.width(other, rules);
    let guard = request.band.guard;
    share(request, one, other) && end + guard > other_start && other_end + guard > start
}

/// A demand's route; empty where no demand stands.
fn route(request: &Request, position: usize) -> &[usize] {
    request.demands.get(position).map_or(&[], |demand| &demand.route)
}
