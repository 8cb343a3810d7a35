//! A list of calls in the making, and the usual arguments a call gets beside its request.

use crate::certify::Offer;
use crate::frames::Call;
use crate::one::One;
use crate::request::{Band, Request};
use crate::request_file::request_bytes;

#[derive(Default)]
pub struct Cases {
    pub calls: Vec<Call>,
}

impl Cases {
    pub fn read(&mut self, file: &[u8]) {
        self.calls.push(Call::ReadRequest { file: file.to_vec() });
    }

    pub fn sound(&mut self, request: &Request) {
        self.calls.push(Call::Sound { request: request.clone() });
    }

    pub fn write(&mut self, room: usize, request: &Request) {
        self.calls.push(Call::WriteRequest { room, request: request.clone() });
    }

    pub fn bound(&mut self, request: &Request) {
        self.calls.push(Call::Bound { request: request.clone() });
    }

    /// First fit with the same room in both buffers.
    pub fn place(&mut self, room: usize, order: &[usize], request: &Request) {
        self.place_in([room; 2], order, request);
    }

    pub fn place_in(&mut self, rooms: [usize; 2], order: &[usize], request: &Request) {
        self.calls.push(Call::FirstFit { rooms, order: order.to_vec(), request: request.clone() });
    }

    pub fn search(&mut self, limit: u64, rooms: [usize; 3], request: &Request) {
        self.calls.push(Call::Search { limit, rooms, request: request.clone() });
    }

    /// Groups with as much room as there are demands.
    pub fn groups(&mut self, count: usize, request: &Request) {
        self.groups_in([request.demand_count.min(200); 2], count, request);
    }

    pub fn groups_in(&mut self, rooms: [usize; 2], count: usize, request: &Request) {
        self.calls.push(Call::Groups { rooms, count, request: request.clone() });
    }

    pub fn check(&mut self, starts: &[i64], request: &Request) {
        self.calls.push(Call::Check { starts: starts.to_vec(), request: request.clone() });
    }

    pub fn read_plan(&mut self, room: usize, file: &[u8], request: &Request) {
        self.calls.push(Call::ReadPlan { room, file: file.to_vec(), request: request.clone() });
    }

    pub fn write_plan(&mut self, room: usize, starts: &[i64], request: &Request) {
        self.calls.push(Call::WritePlan { room, starts: starts.to_vec(), request: request.clone() });
    }

    pub fn frequency(&mut self, band: &Band, start: i64, width: i64) {
        self.calls.push(Call::Frequency { band: band.clone(), start, width });
    }

    pub fn block(&mut self, band: &Band, n: i64, m: i64) {
        self.calls.push(Call::Block { band: band.clone(), n, m });
    }

    pub fn one(&mut self, one: One) {
        self.calls.push(Call::PlaceOne { one });
    }

    /// A certificate with as many starts and weights as it has.
    pub fn certify(&mut self, offer: Offer, request: &Request) {
        self.certify_in([offer.starts.len(), offer.weights.len()], offer, request);
    }

    pub fn certify_in(&mut self, counts: [usize; 2], offer: Offer, request: &Request) {
        self.calls.push(Call::Certify { counts, offer, request: request.clone() });
    }

    /// Every call that takes a request, with arguments that would do for a sound one.
    pub fn every_call(&mut self, request: &Request) {
        let count = request.demand_count.min(200);
        let order: Vec<usize> = (0..count).collect();
        self.sound(request);
        self.bound(request);
        self.write(request_bytes(request).len() + 2, request);
        self.place_in([count + 1, count], &order, request);
        self.search(10, [count, count + 1, count], request);
        self.groups(count.clamp(1, 3), request);
        self.check(&vec![0; count], request);
        self.read_plan(count, &[], request);
        self.write_plan(7 * count + 1, &vec![0; count], request);
        self.certify(Offer { starts: vec![0; count], weights: vec![0; count], most: 1 }, request);
    }

    /// Every call with the request and also a fault of its own, so that the request's fault comes first.
    pub fn every_call_faulty(&mut self, request: &Request) {
        let count = request.demand_count.min(200);
        self.write(3, request);
        self.place(0, &[7; 2], request);
        self.place(0, &(0..count).collect::<Vec<_>>(), request);
        self.search(0, [0; 3], request);
        self.groups_in([0; 2], 9, request);
        self.groups_in([count.min(9); 2], 0, request);
        self.check(&[], request);
        self.check(&vec![65535; count], request);
        self.read_plan(0, &[4; 3], request);
        self.write_plan(0, &[], request);
        self.write_plan(0, &vec![0; count], request);
        self.certify(Offer { starts: vec![], weights: vec![9; 2], most: 3 }, request);
    }
}
