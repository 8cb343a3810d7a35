//! Calls whose frames are as long as they get, and buffers as long as may be lent.

use super::cases::Cases;
use super::ones::packed;
use super::shapes::{largest, largest_mixed, stack};
use crate::certify::Offer;
use crate::frames::OFFERED_HELD;
use crate::one::One;

const COUNT_MOST: usize = 65_535;
const ROOM_MOST: usize = 8_192;

pub fn longest_cases() -> Cases {
    let mut cases = Cases::default();
    let request = largest();
    for length in [COUNT_MOST, 138_611, 200_000] {
        cases.read(&vec![4; length]);
    }
    cases.sound(&request);
    cases.bound(&request);
    cases.write(ROOM_MOST, &request);
    cases.write(ROOM_MOST, &largest_mixed());
    cases.place(ROOM_MOST, &vec![0; COUNT_MOST], &request);
    cases.search(10, [ROOM_MOST; 3], &request);
    cases.groups_in([ROOM_MOST; 2], u32::MAX as usize, &request);
    cases.groups_in([ROOM_MOST; 2], 2, &request);
    cases.check(&vec![0; COUNT_MOST], &request);
    cases.read_plan(ROOM_MOST, &vec![4; COUNT_MOST], &request);
    cases.write_plan(ROOM_MOST, &vec![0; COUNT_MOST], &request);
    let offer = Offer { starts: vec![0; OFFERED_HELD], weights: vec![2; OFFERED_HELD], most: 2 };
    cases.certify_in([COUNT_MOST; 2], offer, &request);
    longest_accepted(&mut cases);
    cases
}

/// Starts behind the last demand's are not read, however many there are.
fn longest_accepted(cases: &mut Cases) {
    let request = stack(200, 0, &[1; 200]);
    let starts: Vec<i64> = (0..COUNT_MOST as i64).collect();
    let order: Vec<usize> = (0..200).collect();
    cases.place(ROOM_MOST, &order, &request);
    cases.check(&starts, &request);
    cases.write_plan(ROOM_MOST, &starts, &request);
    cases.search(200, [ROOM_MOST; 3], &stack(20, 0, &[1; 20]));
    cases.groups_in([ROOM_MOST; 2], 3, &request);
    let offer = Offer { starts: starts[..OFFERED_HELD].to_vec(), weights: vec![2; 200], most: 2 };
    cases.certify_in([COUNT_MOST, 200], offer, &request);
    cases.one(One { count: COUNT_MOST, ..packed(200, 300) });
}
