//! Blocks and frequencies, in exact 64-bit numbers.

use crate::request::{refuse, Band, Refusal};
use crate::rules::Rules;
use crate::slips::Slip;
use crate::sound::{test_band, width_fault};

/// The central number, the width number and the central frequency in MHz of a block.
#[derive(Debug, PartialEq)]
pub struct Centre {
    pub n: i64,
    pub m: i64,
    pub mhz: i64,
}

pub fn to_frequency(band: &Band, start: i64, width: i64, rules: &Rules) -> Result<Centre, Refusal> {
    for &check in &rules.checks.frequency {
        match check {
            4 => test_band(band, rules)?,
            9 if width_fault(band, width, rules) => return refuse(9, 0),
            17 if end_fault(band, start, width, rules) => return refuse(17, block_place(start, rules)),
            _ => {}
        }
    }
    let n = central_number(band, start, width, rules);
    Ok(Centre { n, m: width, mhz: megahertz(n, rules) })
}

fn end_fault(band: &Band, start: i64, width: i64, rules: &Rules) -> bool {
    let end = start + width;
    match rules.slip {
        Slip::BlockEndWraps => end % 65536 > band.slots,
        Slip::BlockEndAtTopRefused => end >= band.slots,
        _ => end > band.slots,
    }
}

fn block_place(start: i64, rules: &Rules) -> usize {
    if rules.slips(Slip::BlockPlaceStart) {
        start as usize
    } else {
        0
    }
}

/// n = n0 + 2s + w
fn central_number(band: &Band, start: i64, width: i64, rules: &Rules) -> i64 {
    match rules.slip {
        Slip::CentreOneStepPerSlot => band.n0 + start + width,
        Slip::CentreAtLowerEdge => band.n0 + 2 * start,
        Slip::CentreTwiceWidth => band.n0 + 2 * start + 2 * width,
        _ => band.n0 + 2 * start + width,
    }
}

/// 193,100,000 + 6,250 n MHz
fn megahertz(n: i64, rules: &Rules) -> i64 {
    let step = if rules.slips(Slip::MegahertzPerSlot) { 12_500 } else { 6_250 };
    193_100_000 + step * n
}

/// The start and width of the block with that central number and width number.
pub fn to_block(band: &Band, n: i64, m: i64, rules: &Rules) -> Result<(i64, i64), Refusal> {
    for &check in &rules.checks.block {
        match check {
            4 => test_band(band, rules)?,
            _ => {
                block_start(band, n, m, rules)?;
            }
        }
    }
    Ok((block_start(band, n, m, rules)?, m))
}

/// The start, half of n - n0 - m, where that is even and at least 0, m is a width, and the block ends within S.
fn block_start(band: &Band, n: i64, m: i64, rules: &Rules) -> Result<i64, Refusal> {
    let n = if rules.slips(Slip::NumberIn16Bits) { n as i16 as i64 } else { n };
    let twice = n - band.n0 - m;
    if m < 1 || m > band.slots {
        return refuse(if rules.slips(Slip::BackWidthIs9) { 9 } else { 19 }, 0);
    }
    if !even_and_not_negative(twice, rules) {
        return refuse(19, 0);
    }
    let start = twice / 2;
    if start + m > band.slots && !rules.slips(Slip::BackTopUntested) {
        return refuse(19, 0);
    }
    Ok(start)
}

/// Both are tested before halving.
fn even_and_not_negative(twice: i64, rules: &Rules) -> bool {
    match rules.slip {
        Slip::HalvedFirst => twice / 2 >= 0,
        Slip::OddnessUntested => twice >= 0,
        Slip::SignUntested => twice % 2 == 0,
        _ => twice >= 0 && twice % 2 == 0,
    }
}
