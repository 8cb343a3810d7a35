//! Certificates: a plan with weights that show that no allowed plan ends below some end.

use crate::bound::bound;
use crate::pairs::share;
use crate::plan::{plan_end, test_starts};
use crate::rates::Asked;
use crate::request::{refuse, Refusal, Request};
use crate::rules::{Rules, SETS, SHAPE, WEIGHTS};
use crate::slips::Slip;

/// What is given beside a request: a plan, a weight for each demand, and what demands that share no link may weigh together.
#[derive(Clone, Debug, PartialEq)]
pub struct Offer {
    pub starts: Vec<i64>,
    pub weights: Vec<i64>,
    pub most: i64,
}

/// The plan's end, and where it lies above that the end below which no plan ends.
#[derive(Clone, Copy, Debug, PartialEq)]
pub enum Certified {
    Best(i64),
    AtLeast(i64, i64),
}

pub fn certify(request: &Request, offer: &Offer, rules: &Rules) -> Result<Certified, Refusal> {
    for &check in &rules.checks.certify {
        match check {
            SHAPE => test_shape(request, offer, rules)?,
            WEIGHTS => test_weights(request, offer, rules)?,
            SETS => test_sets(request, offer, rules)?,
            _ => test_starts(check, request, &offer.starts, rules)?,
        }
    }
    let end = plan_end(request, &offer.starts, rules);
    Ok(told(request, lowest_end(request, offer, rules), end, rules))
}

fn told(request: &Request, low: i64, end: i64, rules: &Rules) -> Certified {
    match rules.slip {
        Slip::CertificateUnread => Certified::Best(end),
        Slip::CertificateNeverBest => Certified::AtLeast(low, end),
        Slip::CertificateBestAtBound if end == bound(request, rules) => Certified::Best(end),
        Slip::CertificateEndsSwapped if end != low => Certified::AtLeast(end, low),
        _ if end == low => Certified::Best(end),
        _ => Certified::AtLeast(low, end),
    }
}

/// 30: not a weight for each demand, or a most that is neither 1 nor 2.
fn test_shape(request: &Request, offer: &Offer, rules: &Rules) -> Result<(), Refusal> {
    let (given, count) = (offer.weights.len(), request.demand_count);
    let short = given < count && !rules.slips(Slip::MissingWeightsAreNone);
    let long = given > count && !rules.slips(Slip::ExtraWeightsUnread);
    let (least, most) = (rules.limits.weighed_least, rules.limits.weighed_most);
    if short || long || offer.most < least || offer.most > most {
        return refuse(30, shape_place(request, offer, rules));
    }
    Ok(())
}

fn shape_place(request: &Request, offer: &Offer, rules: &Rules) -> usize {
    match rules.slip {
        Slip::ShapePlaceGiven => offer.weights.len(),
        Slip::ShapePlaceZero => 0,
        Slip::ShapePlaceMost if offer.weights.len() == request.demand_count => offer.most as usize,
        _ => request.demand_count,
    }
}

/// 30 at the first demand that alone weighs too much. All weights are looked at before any two demands.
fn test_weights(request: &Request, offer: &Offer, rules: &Rules) -> Result<(), Refusal> {
    let most = match rules.slip {
        Slip::WeightHeldAgainstTwo => 2,
        Slip::WeightAtMostRefused => offer.most - 1,
        _ => offer.most,
    };
    let above = |&position: &usize| weight(offer, position) > most;
    let mut positions = 0..request.demand_count;
    let found = if rules.slips(Slip::WeightPlaceLast) { positions.rfind(above) } else { positions.find(above) };
    match found {
        Some(position) if rules.slips(Slip::WeightAsPlace) => refuse(30, weight(offer, position) as usize),
        Some(position) => refuse(30, position),
        None => Ok(()),
    }
}

fn weight(offer: &Offer, position: usize) -> i64 {
    offer.weights.get(position).copied().unwrap_or(0)
}

/// 30 at the lowest demand that is the first of two or of three that weigh too much.
fn test_sets(request: &Request, offer: &Offer, rules: &Rules) -> Result<(), Refusal> {
    let scales = Scales::new(request, offer, rules);
    let Some(set) = scales.first_set() else { return Ok(()) };
    let place = match rules.slip {
        Slip::SetPlaceSecond => set[1],
        Slip::SetPlaceLast => set[set.len() - 1],
        Slip::SetPlaceAsMember => scales.members.iter().position(|&member| member == set[0]).unwrap_or(0),
        _ => set[0],
    };
    refuse(30, place)
}

/// Whether a certificate has a set of two or three demands that weighs too much.
pub fn too_heavy(request: &Request, offer: &Offer) -> bool {
    test_sets(request, offer, &Rules::right()).is_err()
}

/// The demands that weigh something, and who shares a link with whom.
struct Scales<'a> {
    offer: &'a Offer,
    rules: &'a Rules,
    members: Vec<usize>,
    shared: Vec<Vec<bool>>,
}

impl Scales<'_> {
    fn new<'a>(request: &Request, offer: &'a Offer, rules: &'a Rules) -> Scales<'a> {
        let count = request.demands.len();
        let weighs = |&position: &usize| weight(offer, position) > 0 || rules.slips(Slip::WeightlessCounted);
        let row = |one: usize| (0..count).map(|other| share_link(request, one, other, rules)).collect();
        Scales { offer, rules, members: (0..count).filter(weighs).collect(), shared: (0..count).map(row).collect() }
    }

    /// By its first demand, whether it has two or three.
    fn first_set(&self) -> Option<Vec<usize>> {
        let pair = |&first: &usize| self.pair_from(first);
        let three = |&first: &usize| self.three_from(first);
        let mut members = self.members.iter();
        match self.rules.slip {
            Slip::ThreesForgotten => members.find_map(pair),
            Slip::PairsForgotten => members.find_map(three),
            Slip::PairsBeforeThrees => members.find_map(pair).or_else(|| self.members.iter().find_map(three)),
            Slip::SetsBySecond => self.members.iter().find_map(|&second| self.set_to(second)),
            Slip::NeighboursOnly => self.members.windows(2).map(<[usize]>::to_vec).find(|pair| self.heavy(pair)),
            _ => members.find_map(|first| pair(first).or_else(|| three(first))),
        }
    }

    fn behind(&self, first: usize) -> impl Iterator<Item = usize> + '_ {
        self.members.iter().copied().filter(move |&member| member > first)
    }

    fn pair_from(&self, first: usize) -> Option<Vec<usize>> {
        self.behind(first).map(|second| [first, second]).find(|pair| self.heavy(pair)).map(|pair| pair.to_vec())
    }

    fn three_from(&self, first: usize) -> Option<Vec<usize>> {
        let threes = |second: usize| self.behind(second).map(move |third| [first, second, third]);
        self.behind(first).flat_map(threes).find(|three| self.heavy(three)).map(|three| three.to_vec())
    }

    /// A pair with this second, or a three.
    fn set_to(&self, second: usize) -> Option<Vec<usize>> {
        let before = || self.members.iter().copied().filter(move |&member| member < second);
        let pair = before().map(|first| vec![first, second]).find(|pair| self.heavy(pair));
        let threes = |first: usize| self.behind(second).map(move |third| vec![first, second, third]);
        pair.or_else(|| before().flat_map(threes).find(|three| self.heavy(three)))
    }

    /// Whether these share no link, no two of them, and weigh too much together.
    fn heavy(&self, set: &[usize]) -> bool {
        let sum: i64 = set.iter().map(|&member| weight(self.offer, member)).sum();
        let most = match self.rules.slip {
            Slip::SetAtMostRefused => self.offer.most - 1,
            Slip::SetHeldAgainstTwo => 2,
            _ => self.offer.most,
        };
        sum > most && self.apart(set)
    }

    fn apart(&self, set: &[usize]) -> bool {
        let free = |one: usize, other: usize| !self.shared[set[one]][set[other]];
        match (self.rules.slip, set.len()) {
            (Slip::SharingSetCounted, _) | (Slip::SharingPairCounted, 2) => true,
            (Slip::ThirdHeldAgainstFirst, 3) => free(0, 1) && free(0, 2),
            (Slip::ThirdHeldAgainstSecond, 3) => free(0, 1) && free(1, 2),
            (Slip::ThirdAloneHeld, 3) => free(0, 2) && free(1, 2),
            (Slip::AnyTwoOfThreeApart, 3) => free(0, 1) || free(0, 2) || free(1, 2),
            (_, 2) => free(0, 1),
            _ => free(0, 1) && free(0, 2) && free(1, 2),
        }
    }
}

fn share_link(request: &Request, one: usize, other: usize, rules: &Rules) -> bool {
    let route = |position: usize| request.demands.get(position).map_or(&[][..], |demand| &demand.route);
    let nodes = |position: usize| route(position).iter().map(|&link| request.links[link]).collect::<Vec<_>>();
    match rules.slip {
        Slip::CertificateFirstLinks => route(one).first() == route(other).first(),
        Slip::CertificateParallelShared => nodes(one).iter().any(|link| nodes(other).contains(link)),
        Slip::CertificateNodesShared => {
            nodes(one).iter().any(|link| nodes(other).iter().any(|end| link.0 == end.0 || link.1 == end.1))
        }
        _ => share(request, one, other),
    }
}

/// The widths, each with its guard, as often as they weigh; shared out and rounded up, less one guard and never below 0.
fn lowest_end(request: &Request, offer: &Offer, rules: &Rules) -> i64 {
    let guard = request.band.guard;
    let shares = shares(request, offer, rules);
    let low = match rules.slip {
        Slip::LowKeepsGuard => shares,
        Slip::LowLessTwoGuards => shares - 2 * guard,
        _ => shares - guard,
    };
    match rules.slip {
        Slip::LowBelowZero => low,
        Slip::LowNoLessThanBound => low.max(bound(request, rules)),
        Slip::LowAtLeastOne => low.max(1),
        _ => low.max(0),
    }
}

fn shares(request: &Request, offer: &Offer, rules: &Rules) -> i64 {
    let parts = (0..request.demand_count).map(|position| weight(offer, position) * part(request, position, rules));
    let most = offer.most.max(1);
    let up = |sum: i64| (sum + most - 1) / most;
    match rules.slip {
        Slip::SharesRoundedDown => parts.sum::<i64>() / most,
        Slip::SharesRoundedNearest => (2 * parts.sum::<i64>() + most - 1) / (2 * most),
        Slip::SharesOneMore => parts.sum::<i64>() / most + 1,
        Slip::SharesRoundedEach => parts.map(up).sum(),
        Slip::SharesUndivided => parts.sum(),
        Slip::SharesHalved => (parts.sum::<i64>() + 1) / 2,
        Slip::SharesLessGuardFirst => up(parts.sum::<i64>() - request.band.guard) + request.band.guard,
        _ => up(parts.sum()),
    }
}

/// What a demand takes for each time that it weighs.
fn part(request: &Request, position: usize, rules: &Rules) -> i64 {
    let width = request.width(position, rules);
    match (rules.slip, request.demands.get(position).map(|demand| demand.asked)) {
        (Slip::PartWithoutGuard, _) => width,
        (Slip::PartWithTwoGuards, _) => width + 2 * request.band.guard,
        (Slip::PartByRate, Some(Asked::Rate(rate))) => rate + request.band.guard,
        _ => width + request.band.guard,
    }
}
