//! Lent result buffers: the test of their room, and writing into them.

use crate::request::{refuse, Refusal};
use crate::rules::Rules;
use crate::slips::Slip;

/// 10: the first buffer shorter than `need`; the place is the count it needs.
pub fn test_room(rooms: &[usize], need: usize, rules: &Rules) -> Result<(), Refusal> {
    let looked_at = match rules.slip {
        Slip::SecondBufferUntested => &rooms[..rooms.len().min(1)],
        Slip::LastBufferUntested if rooms.len() > 1 => &rooms[..rooms.len() - 1],
        _ => rooms,
    };
    for &room in looked_at {
        if room < need || (rules.slips(Slip::ExactRoomRefused) && room == need && need > 0) {
            return refuse(10, short_place(room, need, rules));
        }
    }
    Ok(())
}

fn short_place(room: usize, need: usize, rules: &Rules) -> usize {
    match rules.slip {
        Slip::ShortPlaceRoom => room,
        Slip::ShortPlaceMissing => need.saturating_sub(room),
        _ => need,
    }
}

/// Writes the values to the front and leaves the rest of the buffer alone.
pub fn write<T: Copy>(out: &mut [T], values: &[T], zero: T, rules: &Rules) {
    for (entry, &value) in out.iter_mut().zip(values) {
        *entry = value;
    }
    if rules.slips(Slip::RestCleared) {
        for entry in out.iter_mut().skip(values.len()) {
            *entry = zero;
        }
    }
}

pub fn write_numbers(out: &mut [u16], values: &[i64], rules: &Rules) {
    let entries: Vec<u16> = values.iter().map(|&value| value as u16).collect();
    write(out, &entries, 0, rules);
}
