//! Nets with a marking for calls that are lent a net: small ones, some of them faulty,
//! and nets of all sizes.

use reference::joined::Half;
use reference::net::below;

use crate::encode::{self, Transition};
use crate::firings::firing_in;
use crate::prng::Prng;
use crate::settings::{optional, setting};

/// A net with its marking, perhaps a faulty one.
#[derive(Clone, Debug, PartialEq, Eq)]
pub struct LentNet {
    pub places: u32,
    pub marking: u64,
    pub net: Vec<u8>,
}

impl LentNet {
    pub fn half(&self) -> Half<'_> {
        Half {
            places: self.places,
            marking: self.marking,
            net: &self.net,
        }
    }
}

/// A small net, or a faulty one.
pub fn small(rng: &mut Prng) -> LentNet {
    let setting = setting(rng);
    let firing = firing_in(rng, &setting);
    LentNet {
        places: firing.places,
        marking: firing.marking,
        net: firing.net,
    }
}

/// A net of so many places and transitions, rarely with most of the arcs that it can
/// have.
pub fn sized(rng: &mut Prng, places: usize, transitions: usize) -> LentNet {
    let all = below(places as u32);
    let density = match rng.below(200) {
        0 => 4,
        1..=10 => 3,
        _ => rng.below(3),
    };
    let set = |rng: &mut Prng| match rng.below(density + 1) {
        0 => 0,
        1 => 1 << rng.below(places),
        2 => rng.number() & rng.number() & rng.number() & rng.number() & all,
        3 => rng.number() & all,
        _ => all,
    };
    let list: Vec<Transition> = (0..transitions)
        .map(|_| Transition {
            pre: set(rng),
            post: set(rng),
            action: action(rng),
        })
        .collect();
    LentNet {
        places: places as u32,
        marking: rng.number() & all,
        net: encode::marked_net(&list, optional(rng, transitions)),
    }
}

/// An action of any number of digits.
pub fn action(rng: &mut Prng) -> u16 {
    match rng.below(4) {
        0 => rng.pick(&[0, 9, 10, 99, 100, 999, 1000, 9999, 10_000, 65_535]),
        1 => rng.number() as u16,
        _ => {
            let above = rng.pick(&[10, 100, 1000, 10_000]);
            rng.below(above) as u16
        }
    }
}
