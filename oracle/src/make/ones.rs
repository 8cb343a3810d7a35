//! One demand beside numbers that stand: stored cases, and cases by chance.

use super::cases::Cases;
use super::dice::Dice;
use crate::one::{One, Standing, NUMBERS_HELD};

const MOST: i64 = 65535;

pub fn one_cases(cases: &mut Cases) {
    nobody(cases);
    guards(cases);
    gaps(cases);
    empty_blocks(cases);
    not_met(cases);
    several(cases);
    too_wide(cases);
    no_width(cases);
    far_out(cases);
    counts(cases);
}

fn met(blocks: &[(i64, i64)]) -> Vec<Standing> {
    blocks.iter().map(|&(start, end)| Standing { meets: 1, start, end }).collect()
}

/// Blocks two slots long, a guard of 1 apart.
pub fn packed(count: usize, slots: i64) -> One {
    let block = |number: usize| (3 * number as i64, 3 * number as i64 + 2);
    One::new(slots, 1, 2, met(&(0..count).map(block).collect::<Vec<_>>()))
}

fn nobody(cases: &mut Cases) {
    for slots in [0, 1, 384, MOST] {
        for width in [0, 1, 2, 384, 385, MOST] {
            cases.one(One::new(slots, 8, width, vec![]));
        }
        cases.one(One::new(slots, MOST, slots, vec![]));
    }
}

/// Below the block there is just room with the guard, or just none; then there is above it.
fn guards(cases: &mut Cases) {
    for guard in [0, 1, 2, 8, 300] {
        for width in [0, 1, 3, 4, 5, 6] {
            for slots in [12 + guard, 13 + guard, 14 + guard] {
                cases.one(One::new(slots, guard, width, met(&[(5, 8)])));
            }
        }
    }
}

fn gaps(cases: &mut Cases) {
    for from in 3..10 {
        for guard in [0, 1, 2] {
            cases.one(One::new(40, guard, 2, met(&[(from, from + 2), (0, 3), (from + 4, from + 9)])));
            cases.one(One::new(from + 1, guard, 2, met(&[(from, from + 2), (0, 3), (1, 2)])));
        }
    }
    for (count, slots) in [(1, 4), (1, 5), (2, 8), (7, 22), (7, 23), (200, 600), (200, 602), (200, 601), (200, 1)] {
        cases.one(packed(count, slots));
    }
}

fn empty_blocks(cases: &mut Cases) {
    for block in [(0, 0), (5, 5), (5, 4), (5, 0), (6, 1), (MOST, 0), (MOST, MOST), (1, 0)] {
        for guard in [0, 1, 7] {
            cases.one(One::new(20, guard, 3, met(&[block])));
            cases.one(One::new(20, guard, 3, met(&[block, (2, 6)])));
            cases.one(One::new(3, guard, 3, met(&[block, (0, 1)])));
        }
    }
}

fn not_met(cases: &mut Cases) {
    for meets in [0, 1, 2, 3, 128, 254, 255] {
        let mut numbers = met(&[(0, 4), (0, 6), (3, 6)]);
        numbers[0].meets = meets;
        numbers[2].meets = meets;
        cases.one(One::new(30, 0, 4, numbers.clone()));
        cases.one(One::new(7, 1, 4, numbers.clone()));
        numbers[1].meets = 0;
        cases.one(One::new(30, 2, 2, numbers));
    }
}

/// Several end together: the lowest number of them is named, wherever it begins.
fn several(cases: &mut Cases) {
    let blocks = [(0, 3), (2, 6), (4, 6), (0, 6)];
    for turn in 0..4 {
        let mut turned = blocks;
        turned.rotate_left(turn);
        for guard in [0, 1, 3] {
            for slots in [5 + guard, 7 + guard, 8 + guard, 30] {
                cases.one(One::new(slots, guard, 2, met(&turned)));
            }
        }
        turned.reverse();
        cases.one(One::new(30, 1, 2, met(&turned)));
        cases.one(One::new(8, 1, 2, met(&turned)));
    }
}

/// Nobody is named where the demand is wider than the slots; with exactly the slots there is the start 0.
fn too_wide(cases: &mut Cases) {
    for slots in [0, 1, 9] {
        for width in [slots, slots + 1, MOST] {
            cases.one(One::new(slots, 1, width, met(&[(20, 22), (0, 1)])));
            cases.one(One::new(slots, 0, width, met(&[(9, 22)])));
            cases.one(One::new(slots, 8, width, met(&[(17, 22)])));
        }
    }
}

fn no_width(cases: &mut Cases) {
    for guard in [0, 1, 2] {
        for slots in [0, 1, 3, 4, 5, 20] {
            cases.one(One::new(slots, guard, 0, met(&[(0, 3)])));
            cases.one(One::new(slots, guard, 0, met(&[(1, 2), (0, 1), (2, 5)])));
        }
    }
}

/// Sums that leave 16 bits.
fn far_out(cases: &mut Cases) {
    let ends = [0, 1, 2, MOST - 1, MOST];
    for slots in [0, 2, MOST - 1, MOST] {
        for guard in [0, 1, MOST] {
            for width in ends {
                cases.one(One::new(slots, guard, width, met(&[(MOST - 1, MOST), (0, 1)])));
                cases.one(One::new(slots, guard, width, met(&[(2, MOST), (MOST, 0)])));
            }
        }
    }
    for (start, end) in [(0, MOST), (1, MOST), (0, MOST - 1), (32767, 32769), (0, 32768)] {
        for (guard, width) in [(0, 0), (0, 1), (1, 0), (MOST, 0), (32768, 32768), (32767, 1)] {
            cases.one(One::new(MOST, guard, width, met(&[(MOST, MOST), (start, end)])));
        }
    }
}

/// Counts around the 200 numbers there are; the last of those stands in the way.
fn counts(cases: &mut Cases) {
    for count in [199, 200, 201, 256, 400, MOST as usize] {
        let mut numbers = vec![Standing { meets: 0, start: 0, end: 9 }; count.min(NUMBERS_HELD)];
        let last = numbers.len() - 1;
        numbers[last].meets = 1;
        for slots in [10, 11, 12] {
            cases.one(One { count, slots, guard: 1, width: 2, numbers: numbers.clone() });
        }
    }
}

pub fn random_one(dice: &mut Dice) -> One {
    let mut one = match dice.below(8) {
        0..=3 => small_one(dice),
        4 | 5 => crowded_one(dice),
        6 => wide_one(dice, |dice| dice.pick(&[0, 1, 2, 3, 32767, 32768, MOST - 2, MOST - 1, MOST])),
        _ => wide_one(dice, |dice| dice.between(0, MOST)),
    };
    if dice.one_in(8) {
        if dice.one_in(2) {
            one.numbers.truncate(1);
        }
        one.count = dice.pick(&[200, 201, 255, 256, MOST as usize]);
        let unmet = Standing { meets: 0, start: 0, end: MOST };
        one.numbers.resize(NUMBERS_HELD, unmet);
        match dice.below(2) {
            0 => one.numbers.reverse(),
            _ => dice.shuffle(&mut one.numbers),
        }
    }
    one
}

fn random_meets(dice: &mut Dice) -> u8 {
    dice.pick(&[0, 1, 1, 1, 1, 1, 2, 128, 255])
}

/// A few blocks anywhere on few slots, some of them empty.
fn small_one(dice: &mut Dice) -> One {
    let slots = dice.between(0, 24);
    let mut one = One::new(slots, dice.pick(&[0, 0, 1, 1, 2, 5]), dice.between(0, 5), vec![]);
    for _ in 0..dice.below(9) {
        let start = dice.between(0, slots);
        let end = (start + dice.between(-1, 6)).max(0);
        one.numbers.push(Standing { meets: random_meets(dice), start, end });
    }
    one.count = one.numbers.len();
    one
}

/// Blocks one after another on two links, with gaps too small or just large enough, in a band that ends about there.
fn crowded_one(dice: &mut Dice) -> One {
    let mut one = One::new(0, dice.pick(&[0, 0, 1, 2, 8]), dice.between(1, 6), vec![]);
    let mut top = 0;
    for _ in 0..dice.between(1, 20) {
        let start = top + dice.between(0, one.guard + 1);
        top = start + dice.between(1, 6);
        one.numbers.push(Standing { meets: random_meets(dice).max(1), start, end: top });
        if dice.one_in(3) {
            let start = top - dice.between(0, 3).min(top);
            one.numbers.push(Standing { meets: 1, start, end: top });
        }
    }
    dice.shuffle(&mut one.numbers);
    one.count = one.numbers.len();
    one.slots = (top + one.guard + one.width + dice.between(-3, 3)).max(0);
    one
}

/// Every number by the same chance.
fn wide_one(dice: &mut Dice, number: fn(&mut Dice) -> i64) -> One {
    let mut one = One::new(number(dice), number(dice), number(dice), vec![]);
    if dice.one_in(2) {
        one.guard = dice.between(0, 8);
        one.slots = one.slots.max(MOST - dice.between(0, 9));
    }
    for _ in 0..dice.below(6) {
        one.numbers.push(Standing { meets: random_meets(dice), start: number(dice), end: number(dice) });
    }
    one.count = one.numbers.len();
    one
}
