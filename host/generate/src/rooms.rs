//! Rooms that are lent to a call.

use crate::prng::Prng;

/// Room for a length: exact, one short, long (by a record's size, too), none or far too
/// short.
pub fn room(rng: &mut Prng, length: usize, record: usize) -> usize {
    match rng.below(10) {
        0 | 1 => length.saturating_sub(1),
        2..=4 => long(rng, length, record),
        5 => 0,
        6 => rng.below(length + 1),
        _ => length,
    }
}

fn long(rng: &mut Prng, length: usize, record: usize) -> usize {
    length + rng.pick(&[1, 2, record, 1000])
}

/// Room that is enough for a length: exact or long.
pub fn enough(rng: &mut Prng, length: usize, record: usize) -> usize {
    match rng.percent(50) {
        true => length,
        false => long(rng, length, record),
    }
}
