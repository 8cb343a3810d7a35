//! Frames: op (1 byte), body length (4 bytes), body. All numbers are big-endian.

use crate::certify::Offer;
use crate::fields::put_two;
use crate::one::{One, Standing, NUMBERS_HELD};
use crate::rates::Asked;
use crate::request::{Band, Demand, Request};

const LINKS_HELD: usize = 64;
const DEMANDS_HELD: usize = 200;
const HOPS_HELD: usize = 32;
const ROOM_MOST: usize = 8192;
/// Starts, and weights, that stand in the body beside a certificate.
pub const OFFERED_HELD: usize = 256;

/// One call, as a frame asks for it. Rooms stand in the sequence of the buffers: starts, order, blockers. Counts of starts and
/// weights are stated apart from them, since a count may exceed what the body holds.
#[derive(Clone, Debug, PartialEq)]
pub enum Call {
    ReadRequest { file: Vec<u8> },
    Sound { request: Request },
    WriteRequest { room: usize, request: Request },
    Bound { request: Request },
    FirstFit { rooms: [usize; 2], order: Vec<usize>, request: Request },
    Search { limit: u64, rooms: [usize; 3], request: Request },
    Groups { rooms: [usize; 2], count: usize, request: Request },
    Check { starts: Vec<i64>, request: Request },
    ReadPlan { room: usize, file: Vec<u8>, request: Request },
    WritePlan { room: usize, starts: Vec<i64>, request: Request },
    Frequency { band: Band, start: i64, width: i64 },
    Block { band: Band, n: i64, m: i64 },
    PlaceOne { one: One },
    Certify { counts: [usize; 2], offer: Offer, request: Request },
}

impl Call {
    /// The request in memory that the call is given, if it is given one.
    pub fn request(&self) -> Option<&Request> {
        match self {
            Call::Sound { request }
            | Call::WriteRequest { request, .. }
            | Call::Bound { request }
            | Call::FirstFit { request, .. }
            | Call::Search { request, .. }
            | Call::Groups { request, .. }
            | Call::Check { request, .. }
            | Call::ReadPlan { request, .. }
            | Call::WritePlan { request, .. }
            | Call::Certify { request, .. } => Some(request),
            _ => None,
        }
    }

    /// The same call with another request, where it is given one.
    pub fn with_request(&self, other: Request) -> Call {
        let mut call = self.clone();
        match &mut call {
            Call::Sound { request }
            | Call::WriteRequest { request, .. }
            | Call::Bound { request }
            | Call::FirstFit { request, .. }
            | Call::Search { request, .. }
            | Call::Groups { request, .. }
            | Call::Check { request, .. }
            | Call::ReadPlan { request, .. }
            | Call::WritePlan { request, .. }
            | Call::Certify { request, .. } => *request = other,
            _ => {}
        }
        call
    }
}

/// Takes the next frame off the stream. `None` for one that is cut short.
pub fn next_frame<'a>(stream: &mut &'a [u8]) -> Option<(u8, &'a [u8])> {
    let mut cursor = Cursor { rest: stream };
    let op = cursor.byte()?;
    let length = cursor.number(4)? as usize;
    let body = cursor.take(length)?;
    *stream = cursor.rest;
    Some((op, body))
}

/// The call of a frame. `None` when the body is cut short or too long, or the op is unknown.
pub fn call_of(op: u8, body: &[u8]) -> Option<Call> {
    let mut cursor = Cursor { rest: body };
    let call = cursor.call(op)?;
    if cursor.rest.is_empty() {
        Some(call)
    } else {
        None
    }
}

struct Cursor<'a> {
    rest: &'a [u8],
}

impl<'a> Cursor<'a> {
    fn take(&mut self, count: usize) -> Option<&'a [u8]> {
        if self.rest.len() < count {
            return None;
        }
        let (taken, rest) = self.rest.split_at(count);
        self.rest = rest;
        Some(taken)
    }

    fn byte(&mut self) -> Option<u8> {
        Some(self.take(1)?[0])
    }

    fn number(&mut self, bytes: usize) -> Option<u64> {
        Some(self.take(bytes)?.iter().fold(0, |sum, &byte| sum * 256 + byte as u64))
    }

    fn two(&mut self) -> Option<usize> {
        Some(self.number(2)? as usize)
    }

    fn room(&mut self) -> Option<usize> {
        self.two().filter(|&room| room <= ROOM_MOST)
    }

    /// A count and that many two-byte numbers.
    fn numbers(&mut self) -> Option<Vec<i64>> {
        let count = self.two()?;
        (0..count).map(|_| Some(self.two()? as i64)).collect()
    }

    fn band(&mut self) -> Option<Band> {
        let n0 = self.number(2)? as u16 as i16;
        Some(Band::new(n0 as i64, self.two()? as i64, self.byte()? as i64))
    }

    fn link(&mut self) -> Option<(u8, u8)> {
        Some((self.byte()?, self.byte()?))
    }

    /// `None` also for a tag that is no demand's.
    fn demand(&mut self) -> Option<Demand> {
        let tag = self.byte()?;
        let ident = self.two()? as i64;
        let asked = Asked::from(tag, self.two()? as i64)?;
        let hops = self.byte()? as usize;
        let route = self.take(hops.min(HOPS_HELD))?.iter().map(|&link| link as usize).collect();
        Some(Demand { ident, asked, hops, route })
    }

    /// A request as in memory. What a count says beyond the arrays is not in the frame.
    fn raw(&mut self) -> Option<Request> {
        let band = self.band()?;
        let link_count = self.two()?;
        let links = (0..link_count.min(LINKS_HELD)).map(|_| self.link()).collect::<Option<_>>()?;
        let demand_count = self.two()?;
        let demands = (0..demand_count.min(DEMANDS_HELD)).map(|_| self.demand()).collect::<Option<_>>()?;
        Some(Request { band, link_count, links, demand_count, demands })
    }

    fn call(&mut self, op: u8) -> Option<Call> {
        Some(match op {
            0x01 => Call::ReadRequest { file: self.take(self.rest.len())?.to_vec() },
            0x02 => Call::Sound { request: self.raw()? },
            0x03 => Call::WriteRequest { room: self.room()?, request: self.raw()? },
            0x04 => Call::Bound { request: self.raw()? },
            0x05 => self.first_fit()?,
            0x06 => self.search()?,
            0x07 => Call::Check { starts: self.numbers()?, request: self.raw()? },
            0x08 => Call::ReadPlan { room: self.room()?, file: self.plan_file()?, request: self.raw()? },
            0x09 => Call::WritePlan { room: self.room()?, starts: self.numbers()?, request: self.raw()? },
            0x0A => Call::Frequency { band: self.band()?, start: self.two()? as i64, width: self.two()? as i64 },
            0x0B => Call::Block { band: self.band()?, n: self.number(4)? as u32 as i32 as i64, m: self.two()? as i64 },
            0x0C => self.groups()?,
            0x20 => Call::PlaceOne { one: self.one()? },
            0x21 => self.certify()?,
            _ => return None,
        })
    }

    fn order(&mut self) -> Option<Vec<usize>> {
        Some(self.numbers()?.into_iter().map(|entry| entry as usize).collect())
    }

    fn first_fit(&mut self) -> Option<Call> {
        let rooms = [self.room()?, self.room()?];
        Some(Call::FirstFit { rooms, order: self.order()?, request: self.raw()? })
    }

    fn search(&mut self) -> Option<Call> {
        let limit = self.number(4)?;
        let rooms = [self.room()?, self.room()?, self.room()?];
        Some(Call::Search { limit, rooms, request: self.raw()? })
    }

    fn groups(&mut self) -> Option<Call> {
        let rooms = [self.room()?, self.room()?];
        Some(Call::Groups { rooms, count: self.number(4)? as usize, request: self.raw()? })
    }

    /// What a count says beyond 256 starts or weights is not in the frame.
    fn certify(&mut self) -> Option<Call> {
        let start_count = self.two()?;
        let starts = (0..start_count.min(OFFERED_HELD)).map(|_| Some(self.two()? as i64)).collect::<Option<_>>()?;
        let weight_count = self.two()?;
        let weights = self.take(weight_count.min(OFFERED_HELD))?.iter().map(|&weight| weight as i64).collect();
        let offer = Offer { starts, weights, most: self.byte()? as i64 };
        Some(Call::Certify { counts: [start_count, weight_count], offer, request: self.raw()? })
    }

    fn standing(&mut self) -> Option<Standing> {
        Some(Standing { meets: self.byte()?, start: self.two()? as i64, end: self.two()? as i64 })
    }

    /// What a count says beyond 200 numbers is not in the frame.
    fn one(&mut self) -> Option<One> {
        let count = self.two()?;
        let [slots, guard, width] = [self.two()?, self.two()?, self.two()?].map(|number| number as i64);
        let numbers = (0..count.min(NUMBERS_HELD)).map(|_| self.standing()).collect::<Option<_>>()?;
        Some(One { count, slots, guard, width, numbers })
    }

    fn plan_file(&mut self) -> Option<Vec<u8>> {
        let length = self.two()?;
        Some(self.take(length)?.to_vec())
    }
}

/// The frame that asks for a call.
pub fn frame_of(call: &Call) -> Vec<u8> {
    let (op, body) = op_and_body(call);
    framed(op, &body)
}

/// A body behind its head.
pub fn framed(op: u8, body: &[u8]) -> Vec<u8> {
    [&[op], &(body.len() as u32).to_be_bytes()[..], body].concat()
}

fn op_and_body(call: &Call) -> (u8, Vec<u8>) {
    match call {
        Call::ReadRequest { file } => (0x01, file.clone()),
        Call::Sound { request } => (0x02, raw(request)),
        Call::WriteRequest { room, request } => (0x03, [two(*room), raw(request)].concat()),
        Call::Bound { request } => (0x04, raw(request)),
        Call::FirstFit { rooms, order, request } => {
            let order: Vec<i64> = order.iter().map(|&entry| entry as i64).collect();
            (0x05, [rooms.map(two).concat(), numbers(&order), raw(request)].concat())
        }
        Call::Search { limit, rooms, request } => {
            (0x06, [four(*limit), rooms.map(two).concat(), raw(request)].concat())
        }
        Call::Groups { rooms, count, request } => {
            (0x0C, [rooms.map(two).concat(), four(*count as u64), raw(request)].concat())
        }
        Call::Check { starts, request } => (0x07, [numbers(starts), raw(request)].concat()),
        Call::ReadPlan { room, file, request } => {
            (0x08, [two(*room), two(file.len()), file.clone(), raw(request)].concat())
        }
        Call::WritePlan { room, starts, request } => (0x09, [two(*room), numbers(starts), raw(request)].concat()),
        Call::Frequency { band, start, width } => {
            (0x0A, [band_bytes(band), two(*start as usize), two(*width as usize)].concat())
        }
        Call::Block { band, n, m } => {
            (0x0B, [band_bytes(band), (*n as i32).to_be_bytes().to_vec(), two(*m as usize)].concat())
        }
        Call::PlaceOne { one } => (0x20, one_bytes(one)),
        Call::Certify { counts, offer, request } => (0x21, [offer_bytes(*counts, offer), raw(request)].concat()),
    }
}

fn two(value: usize) -> Vec<u8> {
    (value as u16).to_be_bytes().to_vec()
}

fn four(value: u64) -> Vec<u8> {
    (value as u32).to_be_bytes().to_vec()
}

fn numbers(values: &[i64]) -> Vec<u8> {
    let mut out = two(values.len());
    for &value in values {
        put_two(&mut out, value);
    }
    out
}

fn band_bytes(band: &Band) -> Vec<u8> {
    let mut out = Vec::new();
    put_two(&mut out, band.n0);
    put_two(&mut out, band.slots);
    out.push(band.guard as u8);
    out
}

fn offer_bytes(counts: [usize; 2], offer: &Offer) -> Vec<u8> {
    let mut out = two(counts[0]);
    for &start in &offer.starts {
        put_two(&mut out, start);
    }
    out.extend(two(counts[1]));
    out.extend(offer.weights.iter().map(|&weight| weight as u8));
    out.push(offer.most as u8);
    out
}

fn one_bytes(one: &One) -> Vec<u8> {
    let mut out = two(one.count);
    for number in [one.slots, one.guard, one.width] {
        put_two(&mut out, number);
    }
    for standing in &one.numbers {
        out.push(standing.meets);
        put_two(&mut out, standing.start);
        put_two(&mut out, standing.end);
    }
    out
}

fn raw(request: &Request) -> Vec<u8> {
    let mut out = band_bytes(&request.band);
    out.extend(two(request.link_count));
    for link in &request.links {
        out.extend_from_slice(&[link.0, link.1]);
    }
    out.extend(two(request.demand_count));
    for demand in &request.demands {
        out.push(demand.asked.tag());
        put_two(&mut out, demand.ident);
        put_two(&mut out, demand.asked.number());
        out.push(demand.hops as u8);
        out.extend(demand.route.iter().map(|&link| link as u8));
    }
    out
}
