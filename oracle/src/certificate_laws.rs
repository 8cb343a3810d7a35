//! What the rules promise about certificates, held on the answers. A certificate is told here by all sets of demands that
//! share no link, however many, not by pairs and threes.

use crate::certify::{certify, Certified, Offer};
use crate::pairs::share;
use crate::plan::check_starts;
use crate::request::Request;
use crate::rules::Rules;

/// With more demands that weigh something than this, not all sets are tried out.
const MEMBERS_MOST: usize = 12;

/// An answer is given for an accepted plan and a certificate, 30 for an accepted plan and none, at the right demand. Best is told
/// exactly where the plan ends at the certificate's end. `None` for another refusal, or where there are too many sets.
pub fn certificate_holds(request: &Request, offer: &Offer, rules: &Rules) -> Option<bool> {
    let told = match certify(request, offer, rules) {
        Ok(told) => Ok(told),
        Err(refusal) if refusal.number == 30 => Err(refusal.place),
        Err(_) => return None,
    };
    let Ok(end) = check_starts(request, &offer.starts, rules) else { return Some(false) };
    if offer.weights.iter().filter(|&&weight| weight > 0).count() > MEMBERS_MOST {
        return None;
    }
    Some(match (told, fault(request, offer)) {
        (Err(place), Some(wanted)) => place == wanted,
        (Ok(Certified::Best(told)), None) => told == end && is_low(request, offer, end, rules),
        (Ok(Certified::AtLeast(low, told)), None) => told == end && low < end && is_low(request, offer, low, rules),
        _ => false,
    })
}

/// Where a certificate is none: its shape, a weight, or the lowest demand with which a set begins that weighs too much.
fn fault(request: &Request, offer: &Offer) -> Option<usize> {
    if offer.weights.len() != request.demand_count || !(1..=2).contains(&offer.most) {
        return Some(request.demand_count);
    }
    let above = offer.weights.iter().position(|&weight| weight > offer.most);
    above.or_else(|| (0..request.demand_count).find(|&first| heaviest(request, offer, &[first]) > offer.most))
}

/// The most that a set weighs which begins with these demands; 0 where the first of them weighs nothing.
fn heaviest(request: &Request, offer: &Offer, set: &[usize]) -> i64 {
    if offer.weights[set[0]] == 0 {
        return 0;
    }
    let last = set[set.len() - 1];
    let apart = |&other: &usize| offer.weights[other] > 0 && set.iter().all(|&one| !share(request, one, other));
    let longer = (last + 1..request.demand_count).filter(apart);
    let with = longer.map(|other| heaviest(request, offer, &[set, &[other]].concat())).max();
    with.unwrap_or_else(|| set.iter().map(|&one| offer.weights[one]).sum())
}

/// The lowest end that leaves room, a times over, for each demand with its guard as often as it weighs, and for one guard above.
fn is_low(request: &Request, offer: &Offer, low: i64, rules: &Rules) -> bool {
    let guard = request.band.guard;
    let held = |position: usize| offer.weights[position] * (request.width(position, rules) + guard);
    let sum: i64 = (0..request.demand_count).map(held).sum();
    let room = |end: i64| offer.most * (end + guard) >= sum;
    low >= 0 && room(low) && (low == 0 || !room(low - 1))
}
