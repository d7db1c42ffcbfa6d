//! Pairs of nets to be joined.

use reference::Refusal;
use reference::net::{MARK, TRANSITION};

use crate::nets::{LentNet, sized, small};
use crate::prng::Prng;
use crate::rooms::room;

/// Two nets with their markings, and the length of the room.
#[derive(Clone, Debug, PartialEq, Eq)]
pub struct JoinCase {
    pub first: LentNet,
    pub second: LentNet,
    pub room: usize,
}

impl JoinCase {
    /// The sums of the places and of the transitions.
    pub fn sums(&self) -> (u32, usize) {
        let bytes = self.first.net.len() + self.second.net.len();
        let places = self.first.places.saturating_add(self.second.places);
        (places, bytes / TRANSITION)
    }

    /// What each of the nets is refused for.
    pub fn faults(&self) -> [Option<Refusal>; 2] {
        [&self.first, &self.second].map(|lent| lent.half().transitions().err())
    }
}

/// Small nets, some of them faulty, and good ones of all sizes, damaged at times.
pub fn join_case(rng: &mut Prng) -> JoinCase {
    let (mut first, mut second) = match rng.percent(40) {
        true => (small(rng), small(rng)),
        false => two_sized(rng),
    };
    if rng.percent(10) {
        damage(rng, &mut first);
    }
    if rng.percent(15) {
        damage(rng, &mut second);
    }
    let length = first.net.len() + second.net.len();
    JoinCase {
        room: room(rng, length, TRANSITION),
        first,
        second,
    }
}

fn two_sized(rng: &mut Prng) -> (LentNet, LentNet) {
    let (places, transitions) = (two_sizes(rng), two_sizes(rng));
    let first = sized(rng, places.0, transitions.0);
    (first, sized(rng, places.1, transitions.1))
}

/// Two numbers of places or of transitions: small ones, two that make about 64, or any.
fn two_sizes(rng: &mut Prng) -> (usize, usize) {
    match rng.below(20) {
        0..=8 => (rng.between(1, 9), rng.between(1, 9)),
        9..=17 => {
            let sum = rng.pick(&[62, 63, 64, 64, 64, 64, 65, 65, 66]);
            let first = rng.between(sum.max(65) - 64, (sum - 1).min(64));
            (first, sum - first)
        }
        _ => (rng.between(1, 64), rng.between(1, 64)),
    }
}

/// One or two changes, most of which make a good net faulty.
fn damage(rng: &mut Prng, lent: &mut LentNet) {
    for _ in 0..rng.pick(&[1, 1, 2]) {
        damage_once(rng, lent);
    }
}

fn damage_once(rng: &mut Prng, lent: &mut LentNet) {
    let records = lent.net.len() / TRANSITION;
    match rng.below(10) {
        0 => lent.places = rng.pick(&[0, 65, 66, 128, 256, u32::MAX]),
        1 => lent.places = lent.places.wrapping_add(256),
        2 => lent.places = lent.places.wrapping_sub(1),
        3 => lent.marking |= beyond(rng, lent.places),
        4 => {
            let length = rng.pick(&[0, 1, 23, lent.net.len() + 1, 65 * TRANSITION]);
            lent.net.resize(length, 0);
        }
        5 => {
            let length = rng.below(lent.net.len() + 1);
            lent.net.truncate(length);
        }
        _ if records == 0 => {}
        6 | 7 => {
            let at = rng.below(records) * TRANSITION + rng.pick(&[0, 8]);
            let set = beyond(rng, lent.places).to_le_bytes();
            lent.net[at..at + 8].copy_from_slice(&set);
        }
        8 => lent.net[rng.below(records) * TRANSITION + MARK] = rng.pick(&[1, 2, 3, 128, 255]),
        _ => {
            let at = rng.below(records) * TRANSITION + rng.between(MARK + 1, TRANSITION - 1);
            lent.net[at] ^= 1 << rng.below(8);
        }
    }
}

/// A place that the net has not, as a set: the next one, the last or any; none where it
/// can have no more.
fn beyond(rng: &mut Prng, places: u32) -> u64 {
    if places >= 64 {
        return 0;
    }
    let place = match rng.below(4) {
        0 | 1 => places as usize,
        2 => 63,
        _ => rng.between(places as usize, 63),
    };
    1 << place
}
