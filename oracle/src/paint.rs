//! Slots painted on links: one row of slots for each link, growing as it is painted.

use crate::request::Request;
use crate::rules::Rules;
use crate::slips::Slip;

const LINKS: usize = 256;

pub struct Paint {
    rows: Vec<Vec<Option<usize>>>,
    guard_below: i64,
    guard_above: i64,
}

impl Paint {
    /// Nothing painted yet, to place demands on.
    pub fn to_place(request: &Request, rules: &Rules) -> Paint {
        let guard = if rules.slips(Slip::GuardDropped) { 0 } else { request.band.guard };
        let above = if rules.slips(Slip::GuardBelowOnly) { 0 } else { guard };
        Paint { rows: vec![Vec::new(); LINKS], guard_below: guard, guard_above: above }
    }

    /// Nothing painted yet, to check a plan on.
    pub fn to_check(request: &Request, rules: &Rules) -> Paint {
        let guard = match rules.slip {
            Slip::GuardNotChecked => 0,
            Slip::GuardCheckedOneMore => request.band.guard + 1,
            _ => request.band.guard,
        };
        Paint { rows: vec![Vec::new(); LINKS], guard_below: guard, guard_above: guard }
    }

    fn painted(&self, link: usize, slot: i64) -> Option<usize> {
        if slot < 0 {
            return None;
        }
        self.rows[link].get(slot as usize).copied().flatten()
    }

    /// A demand already painted that holds one of the slots, or one nearer to them than the guard.
    pub fn clash(&self, links: &[usize], start: i64, width: i64) -> Option<usize> {
        for &link in links {
            for slot in start - self.guard_below..start + width + self.guard_above {
                if let Some(owner) = self.painted(link, slot) {
                    return Some(owner);
                }
            }
        }
        None
    }

    pub fn paint(&mut self, links: &[usize], start: i64, width: i64, owner: usize) {
        self.set(links, start, width, Some(owner));
    }

    pub fn wipe(&mut self, links: &[usize], start: i64, width: i64) {
        self.set(links, start, width, None);
    }

    fn set(&mut self, links: &[usize], start: i64, width: i64, mark: Option<usize>) {
        for &link in links {
            let row = &mut self.rows[link];
            let end = (start + width) as usize;
            if row.len() < end {
                row.resize(end, None);
            }
            row[start as usize..end].fill(mark);
        }
    }

    /// Whether some painted block ends right before the slot.
    pub fn block_ends_at(&self, slot: i64) -> bool {
        (0..LINKS).any(|link| {
            let before = self.painted(link, slot - 1);
            before.is_some() && before != self.painted(link, slot)
        })
    }

    /// The slot after the last painted one of the given links.
    pub fn top(&self, links: &[usize]) -> i64 {
        let last = |link: &usize| self.rows[*link].iter().rposition(|mark| mark.is_some());
        links.iter().filter_map(last).max().map_or(0, |slot| slot as i64 + 1)
    }

    pub fn top_of_all(&self) -> i64 {
        let all: Vec<usize> = (0..LINKS).collect();
        self.top(&all)
    }
}

/// The links on which a demand is painted: those of its route.
pub fn links_of(request: &Request, position: usize, rules: &Rules) -> Vec<usize> {
    let route = request.demands.get(position).map_or(vec![], |demand| demand.route.clone());
    match rules.slip {
        Slip::EveryPairClashes => vec![0],
        Slip::FirstLinkOnly => route.into_iter().take(1).collect(),
        Slip::LastLinkOnly => route.into_iter().rev().take(1).collect(),
        Slip::ParallelLinksShared => route.into_iter().map(|link| first_parallel(request, link)).collect(),
        _ => route,
    }
}

fn first_parallel(request: &Request, link: usize) -> usize {
    let nodes = request.links.get(link);
    request.links.iter().position(|other| Some(other) == nodes).unwrap_or(link)
}
