//! Damage by chance to requests, files and starts. A damaged request still fits a frame.

use super::dice::Dice;
use super::shapes::{with_demand_count, with_hops, with_link_count, UNLISTED};
use crate::fields::whole_fields;
use crate::rates::{Asked, BY_RATE, BY_WIDTH};
use crate::request::Request;
use crate::rules::RATES;
use crate::sound::nodes_of;

/// One fault or more.
pub fn damage_request(request: &mut Request, dice: &mut Dice) {
    match dice.below(6) {
        0 => damage_band(request, dice),
        1 => damage_links(request, dice),
        2 if dice.one_in(6) => *request = with_demand_count(request.clone(), dice.pick(&[201, 65535])),
        _ => damage_demand(request, dice),
    }
    if dice.one_in(3) {
        damage_request(request, dice);
    }
}

fn damage_band(request: &mut Request, dice: &mut Dice) {
    let band = &mut request.band;
    match dice.below(3) {
        0 => band.n0 = dice.pick(&[-32768, -401, 401, 32767]),
        1 => band.slots = dice.pick(&[0, 385, 65535, 1, 7, 19]),
        _ => band.guard = dice.pick(&[9, 255]),
    }
}

fn damage_links(request: &mut Request, dice: &mut Dice) {
    if dice.one_in(3) {
        *request = with_link_count(request.clone(), dice.pick(&[0, 1, 65, 65535]));
    } else if !request.links.is_empty() {
        let at = dice.below(request.links.len());
        let node = dice.below(4) as u8;
        request.links[at] = if dice.one_in(2) { (node, node) } else { (node, node + 1) };
    }
}

/// A rate of 0, an ident used under both tags, or a node met twice, and no other fault.
pub fn damage_plainly(request: &mut Request, dice: &mut Dice) {
    if request.demands.is_empty() {
        return;
    }
    let at = dice.below(request.demands.len());
    match dice.below(4) {
        0 => request.demands[at].asked = Asked::Rate(0),
        1 => repeat_ident(request, at),
        _ => bite_tail(request, at, dice),
    }
}

/// The ident of the next demand, and a width of one slot by the tag that the next does not have.
fn repeat_ident(request: &mut Request, at: usize) {
    let next = request.demands[(at + 1) % request.demands.len()].clone();
    request.demands[at].ident = next.ident;
    request.demands[at].asked = match next.asked {
        Asked::Width(_) => Asked::Rate(10),
        Asked::Rate(_) => Asked::Width(1),
    };
}

/// One fault in a demand, now and then two in the same.
fn damage_demand(request: &mut Request, dice: &mut Dice) {
    if request.demands.is_empty() {
        return;
    }
    let at = dice.below(request.demands.len());
    damage_one(request, at, dice);
    while dice.one_in(3) {
        damage_one(request, at, dice);
    }
}

fn damage_one(request: &mut Request, at: usize, dice: &mut Dice) {
    let other = dice.below(request.demands.len());
    let slots = request.band.slots;
    match dice.below(13) {
        0 => request.demands[at].ident = request.demands[other].ident,
        1 => request.demands[at].asked = Asked::Width(dice.pick(&[0, slots, slots + 1, 65535]).min(65535)),
        6 | 7 => request.demands[at].asked = Asked::Rate(some_rate(dice)),
        8 => request.demands[at].asked = Asked::Rate(wide_rate(slots, dice)),
        9 => request.demands[at].asked = other_kind(request.demands[at].asked),
        2 => *request = with_hops(request.clone(), at, dice.pick(&[0, 33, 255])),
        3 => damage_route(request, at, dice),
        10..=12 => bite_tail(request, at, dice),
        4 => {
            let first = request.demands[at].route.first().copied();
            lengthen_route(request, at, first.unwrap_or(0));
        }
        _ => lengthen_route(request, at, dice.below(8)),
    }
}

/// Mostly one that is not listed, now and then 0.
fn some_rate(dice: &mut Dice) -> i64 {
    match dice.below(8) {
        0 => dice.pick(&RATES).0,
        1 => dice.between(0, 65535),
        2 => 0,
        _ => dice.pick(&UNLISTED),
    }
}

/// A rate that gives more slots than there are, where there is one.
fn wide_rate(slots: i64, dice: &mut Dice) -> i64 {
    let wide: Vec<i64> = RATES.iter().filter(|row| row.1 > slots).map(|row| row.0).collect();
    if wide.is_empty() {
        return dice.pick(&RATES).0;
    }
    dice.pick(&wide)
}

/// The same number under the other tag.
fn other_kind(asked: Asked) -> Asked {
    match asked {
        Asked::Width(number) => Asked::Rate(number),
        Asked::Rate(number) => Asked::Width(number),
    }
}

fn damage_route(request: &mut Request, at: usize, dice: &mut Dice) {
    let links = request.link_count.min(200);
    let route = &mut request.demands[at].route;
    if !route.is_empty() {
        let hop = dice.below(route.len());
        route[hop] = dice.pick(&[0, 1, 2, links.saturating_sub(1), links, 255]);
    }
}

/// The route goes on, unbroken, by links that are there or by added ones that lead back to one of its nodes; every other time by
/// one more, to a node that it has not met.
fn bite_tail(request: &mut Request, at: usize, dice: &mut Dice) {
    for _ in 0..dice.between(1, 4) {
        let nodes = nodes_of(request, &request.demands[at].route);
        let Some(last) = nodes.last() else { return };
        let on: Vec<usize> = (0..request.links.len()).filter(|&link| request.links[link].0 == *last).collect();
        if !on.is_empty() && !dice.one_in(3) {
            lengthen_route(request, at, dice.pick(&on));
        } else {
            lengthen_to(request, at, dice.pick(&nodes));
        }
    }
    let nodes = nodes_of(request, &request.demands[at].route);
    if dice.one_in(2) {
        let new = (0..=255).find(|node| !nodes.contains(node));
        lengthen_to(request, at, new.unwrap_or(0));
    }
}

/// By a link that is added, where there is room for one, from the route's last node to another.
fn lengthen_to(request: &mut Request, at: usize, node: u8) {
    let last = nodes_of(request, &request.demands[at].route).last().copied();
    let full = request.links.len() != request.link_count || request.link_count >= 64;
    if let Some(last) = last.filter(|&last| last != node && !full) {
        request.links.push((last, node));
        request.link_count += 1;
        lengthen_route(request, at, request.link_count - 1);
    }
}

fn lengthen_route(request: &mut Request, at: usize, link: usize) {
    let demand = &mut request.demands[at];
    if demand.hops == demand.route.len() && demand.hops < 32 {
        demand.route.push(link);
        demand.hops += 1;
    }
}

pub fn damage_file(file: &mut Vec<u8>, dice: &mut Dice) {
    match dice.below(11) {
        0 => file.truncate(dice.below(file.len() + 1)),
        1 => file.push(dice.pick(&[0, 1, 2, 3, 4, 5, 255])),
        2 | 3 if !file.is_empty() => {
            let at = dice.below(file.len());
            file[at] ^= 1 << dice.below(8);
        }
        4 if !file.is_empty() => {
            let at = dice.below(file.len());
            file[at] = dice.below(256) as u8;
        }
        5 => damage_header(file, dice),
        6 if dice.one_in(8) => file.resize(dice.pick(&[1400, 1401, 8128, 8129]), 0),
        9 | 10 => damage_asked(file, dice),
        _ => move_field(file, dice),
    }
}

/// Another rate in a demand's field, or its other tag, or both.
fn damage_asked(file: &mut [u8], dice: &mut Dice) {
    let fields = whole_fields(file);
    let wanted = fields.iter().filter(|field| is_demand(field.tag) && field.length >= 4);
    let offsets: Vec<usize> = wanted.map(|field| field.offset).collect();
    if offsets.is_empty() {
        return;
    }
    let offset = dice.pick(&offsets);
    if dice.one_in(2) {
        file[offset] = BY_WIDTH + BY_RATE - file[offset];
    }
    if dice.one_in(2) {
        file[offset] = BY_RATE;
        let rate = some_rate(dice) as u16;
        file[offset + 5..offset + 7].copy_from_slice(&rate.to_be_bytes());
    }
}

/// Another tag, or another length, at a field's front.
fn damage_header(file: &mut [u8], dice: &mut Dice) {
    let offsets: Vec<usize> = whole_fields(file).iter().map(|field| field.offset).collect();
    if offsets.is_empty() {
        return;
    }
    let offset = dice.pick(&offsets);
    if dice.one_in(2) {
        file[offset] = dice.below(7) as u8;
    } else {
        let length = file[offset + 2];
        file[offset + 2] = dice.pick(&[length.wrapping_add(1), length.wrapping_sub(1), 4, 5, 2]);
    }
}

/// A field left out, repeated, or moved to another place, or all links left out.
fn move_field(file: &mut Vec<u8>, dice: &mut Dice) {
    let mut fields: Vec<Vec<u8>> =
        whole_fields(file).iter().map(|field| file[field.offset..field.offset + 3 + field.length].to_vec()).collect();
    if fields.is_empty() {
        return;
    }
    let at = dice.below(fields.len());
    let to = dice.below(fields.len());
    match dice.below(7) {
        0 => drop(fields.remove(at)),
        1 => fields.insert(to, fields[at].clone()),
        2 => link_behind_demand(&mut fields, dice),
        3 | 4 => stretch_demand(&mut fields, dice),
        5 => fields.retain(|field| field[0] != 2),
        _ => fields.swap(at, to),
    }
    *file = fields.concat();
}

/// The last link once more, behind the first demand or a later one.
fn link_behind_demand(fields: &mut Vec<Vec<u8>>, dice: &mut Dice) {
    let demand = fields.iter().position(|field| is_demand(field[0]));
    if let Some(first) = demand.filter(|&first| first > 0) {
        let to = if dice.one_in(2) { first + 1 } else { dice.between(first as i64, fields.len() as i64) as usize };
        fields.insert(to, fields[first - 1].clone());
    }
}

/// A demand's field with no link, or as many links as it may have, or more.
fn stretch_demand(fields: &mut [Vec<u8>], dice: &mut Dice) {
    let mut demands: Vec<&mut Vec<u8>> =
        fields.iter_mut().filter(|field| is_demand(field[0]) && field.len() >= 7).collect();
    if demands.is_empty() {
        return;
    }
    let at = dice.below(demands.len());
    let hops = dice.pick(&[0, 32, 33]);
    demands[at].truncate(7);
    demands[at].extend(0..hops);
    demands[at][1..3].copy_from_slice(&[0, 4 + hops]);
}

fn is_demand(tag: u8) -> bool {
    tag == BY_WIDTH || tag == BY_RATE
}

pub fn damage_starts(starts: &mut Vec<i64>, slots: i64, dice: &mut Dice) {
    match dice.below(6) {
        0 => drop(starts.pop()),
        1 => starts.push(dice.pick(&[0, 1, 65535])),
        2..=4 if !starts.is_empty() => {
            let at = dice.below(starts.len());
            starts[at] = if dice.one_in(8) { dice.pick(&[slots, 65535]) } else { dice.between(0, slots) };
        }
        _ if !starts.is_empty() => {
            let at = dice.below(starts.len());
            starts[at] = (starts[at] + dice.between(-1, 1)).clamp(0, 65535);
        }
        _ => {}
    }
}
