//! The pairs of nets that are joined, on both sides.

use generate::encode::has_optional;
use generate::joined::JoinCase;
use generate::nets::LentNet;
use reference::joined::join;
use reference::net::TRANSITION;

use crate::firings;
use crate::rooms::{Answer, answer};

pub fn archive_net(case: &JoinCase) -> Answer {
    let (first, second) = (&case.first, &case.second);
    answer(case.room, |room| {
        let (number, record, places, marking, length) = archive::join(
            first.places,
            first.marking,
            &first.net,
            second.places,
            second.marking,
            &second.net,
            room,
        );
        (vec![number.into(), record, places.into(), marking], length)
    })
}

pub fn reference_net(case: &JoinCase) -> Answer {
    let (first, second) = (case.first.half(), case.second.half());
    answer(case.room, |room| match join(first, second, room) {
        Ok(joined) => {
            let numbers = vec![0, 0, joined.places.into(), joined.marking];
            (numbers, joined.length as u64)
        }
        Err(refusal) => (vec![refusal.number.into(), refusal.record, 0, 0], 0),
    })
}

/// Whether the archive's own firing answers for every transition of its joint net as in
/// the half, and for no transition more.
pub fn as_in_the_halves(case: &JoinCase, found: &Answer) -> bool {
    let joint = LentNet {
        places: found.numbers[2] as u32,
        marking: found.numbers[3],
        net: found.written().to_vec(),
    };
    let (first, second) = (&case.first, &case.second);
    let (shift, above) = (first.places, up(second.marking, first.places));
    let low = (0..count(first)).map(|t| moved(fired(first, t), 0, above));
    let high = (0..count(second)).map(|t| moved(fired(second, t), shift, first.marking));
    let mut halves = low.chain(high).enumerate();
    halves.all(|(t, expected)| fired(&joint, t) == expected)
        && fired(&joint, count(first) + count(second)).0 == 8
}

fn count(lent: &LentNet) -> usize {
    lent.net.len() / TRANSITION
}

fn fired(lent: &LentNet, t: usize) -> firings::Answer {
    archive::fire(lent.places, lent.marking, &lent.net, t as u32)
}

/// A set moved up by so many places.
fn up(set: u64, places: u32) -> u64 {
    set.checked_shl(places).unwrap_or(0)
}

/// A half's answer as it must be in the joint net, where the half's places begin at
/// `places` and the other half is marked with `beside`.
fn moved(answer: firings::Answer, places: u32, beside: u64) -> firings::Answer {
    let (number, record, after, missing, occupied) = answer;
    let after = match number {
        0 => up(after, places) | beside,
        _ => after,
    };
    let [missing, occupied] = [missing, occupied].map(|set| up(set, places));
    (number, record, after, missing, occupied)
}

/// What a pair can show beside its answer.
pub const SHOWN: [&str; 10] = [
    "15 for the places alone",
    "15 for the transitions alone",
    "1 of the second",
    "2 of the second",
    "3 of the second",
    "7 of the second",
    "both refused with different numbers",
    "granted with 64 places",
    "granted with 64 transitions",
    "granted with an optional transition in the second",
];

/// Which of these a pair shows, with the number of its answer.
pub fn shown(case: &JoinCase, number: u32) -> [bool; SHOWN.len()] {
    let (places, transitions) = case.sums();
    let [first, second] = case
        .faults()
        .map(|fault| fault.map_or(0, |fault| fault.number));
    let of_the_second = |number: u32| first == 0 && second == number;
    [
        number == 15 && transitions <= 64,
        number == 15 && places <= 64,
        of_the_second(1),
        of_the_second(2),
        of_the_second(3),
        of_the_second(7),
        first != 0 && second != 0 && first != second,
        number == 0 && places == 64,
        number == 0 && transitions == 64,
        number == 0 && has_optional(&case.second.net),
    ]
}
