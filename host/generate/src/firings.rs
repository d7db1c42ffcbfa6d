//! Single firings.

use reference::bytes::{records, u64_at};
use reference::net::{TRANSITION, below};

use crate::mutate::change_mark;
use crate::prng::Prng;
use crate::settings::{Setting, setting};

pub struct FiringCase {
    pub places: u32,
    pub marking: u64,
    pub net: Vec<u8>,
    pub transition: u32,
}

impl FiringCase {
    /// Pre and post of the transition, where the net has it.
    pub fn sets(&self) -> (u64, u64) {
        let records = records::<TRANSITION>(&self.net, 1..=64).expect("a net");
        let record = &records[self.transition as usize];
        (u64_at(record, 0), u64_at(record, 8))
    }
}

pub fn firing_case(rng: &mut Prng) -> FiringCase {
    let mut setting = setting(rng);
    if rng.percent(20) {
        from_the_top(&mut setting);
    }
    firing_in(rng, &setting)
}

/// Numbers the places from 63 down.
fn from_the_top(setting: &mut Setting) {
    setting.places = 64;
    setting.marking = setting.marking.reverse_bits();
    for transition in &mut setting.transitions {
        transition.pre = transition.pre.reverse_bits();
        transition.post = transition.post.reverse_bits();
    }
}

/// A firing in a net, or in a changed one.
pub fn firing_in(rng: &mut Prng, setting: &Setting) -> FiringCase {
    let count = setting.transitions.len();
    let mut case = FiringCase {
        places: setting.places,
        marking: setting.marking,
        net: setting.net(),
        transition: rng.below(count) as u32,
    };
    if rng.percent(30) {
        case.marking = rng.number() & below(case.places);
    }
    if rng.percent(40) {
        for _ in 0..rng.pick(&[1, 1, 2, 3]) {
            change(rng, &mut case, count);
        }
    }
    case
}

fn change(rng: &mut Prng, case: &mut FiringCase, count: usize) {
    match rng.below(11) {
        0 => case.places = rng.pick(&[0, 1, 63, 64, 65, 256, 257, 320, u32::MAX]),
        1 => case.places = case.places.wrapping_sub(1),
        2 => case.marking ^= 1 << rng.below(64),
        3 => case.marking = rng.edge(),
        4 => case.transition = count as u32 + rng.below(2) as u32,
        5 => {
            let far = rng.pick(&[64, 256, 65_536, 1 << 31, u32::MAX - 63]);
            case.transition = case.transition.wrapping_add(far);
        }
        6 if !case.net.is_empty() => {
            let at = rng.below(case.net.len());
            case.net[at] ^= 1 << rng.below(8);
        }
        7 => {
            let records = rng.pick(&[0, 1, 63, 64, 65]);
            let extra = rng.pick(&[0, 0, 0, 1, 23]);
            case.net.resize(records * TRANSITION + extra, 0);
        }
        8 | 9 => change_mark(rng, &mut case.net),
        _ => {
            let length = rng.below(case.net.len() + 1);
            case.net.truncate(length);
        }
    }
}
