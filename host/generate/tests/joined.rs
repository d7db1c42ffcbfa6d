//! Generated pairs of nets on the join: the answer is the one that document 02 says, the
//! records are right one by one, and every transition of the joint net does what it does
//! in its half.

use std::collections::BTreeMap;

use generate::encode::has_optional;
use generate::joined::{JoinCase, join_case};
use generate::prng::Prng;
use reference::Refusal;
use reference::joined::{Joined, join};
use reference::net::{Net, TRANSITION, below, members};

const CASES: usize = 30_000;

/// The refusal of a pair.
fn refusal(case: &JoinCase) -> Option<Refusal> {
    let (places, transitions) = case.sums();
    let short = case.room < transitions * TRANSITION;
    let number = match (places > 64 || transitions > 64, short) {
        (true, _) => 15,
        (_, true) => 12,
        _ => 0,
    };
    let [first, second] = case.faults();
    let together = (number > 0).then_some(Refusal { number, record: 0 });
    first.or(second).or(together)
}

/// A set of a record, with room to be moved up.
fn set(record: &[u8], at: usize) -> u128 {
    let bytes: [u8; 8] = record[at..at + 8].try_into().expect("8 bytes");
    u64::from_le_bytes(bytes).into()
}

/// Sees that the records are those of the first and, moved up, those of the second.
fn records_stand(case: &JoinCase, net: &[u8]) {
    let (start, rest) = net.split_at(case.first.net.len());
    assert_eq!(start, case.first.net);
    assert_eq!(rest.len(), case.second.net.len());
    let pairs = case.second.net.chunks(TRANSITION);
    for (before, after) in pairs.zip(rest.chunks(TRANSITION)) {
        for at in [0, 8] {
            assert_eq!(set(before, at) << case.first.places, set(after, at));
        }
        assert_eq!(before[16..], after[16..]);
    }
}

/// Sees that the joint net at two markings of the halves does what the halves do, and
/// nothing else.
fn does_as_the_halves(low: &Net, high: &Net, both: &Net, markings: [u64; 2]) {
    let [first, second] = markings;
    let marking = first | second << low.places;
    let next = low.next(first) | high.next(second) << low.count;
    assert_eq!(both.next(marking), next);
    for t in members(next) {
        let (first, second) = match t < low.count {
            true => (low.fired(first, t), second),
            false => (first, high.fired(second, t - low.count)),
        };
        assert_eq!(both.fired(marking, t), first | second << low.places);
    }
}

/// Sees that a joint net does what its halves do, at its marking and at others, and that
/// conflicts and marks are those of the halves.
fn worth(rng: &mut Prng, case: &JoinCase, joined: Joined, net: &[u8]) {
    let [low, high] = [&case.first, &case.second]
        .map(|lent| Net::decode(lent.places, &lent.net).expect("a good net"));
    let both = Net::decode(joined.places, net).expect("a good net");
    let markings = [case.first.marking, case.second.marking];
    assert_eq!(joined.marking, markings[0] | markings[1] << low.places);
    does_as_the_halves(&low, &high, &both, markings);
    for _ in 0..4 {
        let markings = [&low, &high].map(|half| rng.number() & below(half.places));
        does_as_the_halves(&low, &high, &both, markings);
    }
    let moved = high.conflict[..high.count].iter().map(|c| c << low.count);
    let conflict: Vec<u64> = low.conflict[..low.count]
        .iter()
        .copied()
        .chain(moved)
        .collect();
    assert_eq!(both.conflict[..both.count], conflict);
    assert_eq!(both.pressed, low.pressed | high.pressed << low.count);
}

/// What a pair shows, with its number.
fn shown(case: &JoinCase, number: u32) -> Vec<String> {
    let (places, transitions) = case.sums();
    let mut shown = vec![format!("answer {number}")];
    match case.faults() {
        [None, Some(refusal)] => shown.push(format!("second {}", refusal.number)),
        [Some(one), Some(other)] if one.number != other.number => {
            shown.push("two faults".to_owned());
        }
        _ => {}
    }
    if number == 15 {
        shown.push(format!("large {} {}", places > 64, transitions > 64));
    }
    for (sum, name) in [(places, "places"), (transitions as u32, "transitions")] {
        if number == 0 && sum == 64 {
            shown.push(format!("64 {name}"));
        }
    }
    if number == 0 && has_optional(&case.second.net) {
        shown.push("optional".to_owned());
    }
    shown
}

#[test]
fn pairs() {
    let (mut rng, mut markings) = (Prng::new(1), Prng::new(2));
    let mut counts = BTreeMap::<String, usize>::new();
    for _ in 0..CASES {
        let case = join_case(&mut rng);
        let fill = rng.number() as u8;
        let mut room = vec![fill; case.room];
        let answer = join(case.first.half(), case.second.half(), &mut room);
        assert_eq!(answer.err(), refusal(&case));
        let length = answer.map_or(0, |joined| joined.length);
        assert!(room[length..].iter().all(|&b| b == fill));
        let number = answer.map_or_else(|refusal| refusal.number, |_| 0);
        for name in shown(&case, number) {
            *counts.entry(name).or_default() += 1;
        }
        if let Ok(joined) = answer {
            let (places, transitions) = case.sums();
            assert_eq!((joined.places, length), (places, transitions * TRANSITION));
            records_stand(&case, &room[..length]);
            worth(&mut markings, &case, joined, &room[..length]);
        }
    }
    println!("{counts:?}");
    // Seven answers, four refusals of the second, two faults, three ways to be too large,
    // two sums of 64, optional transitions.
    assert_eq!(counts.len(), 18);
    assert!(counts.values().all(|&count| count > CASES / 100));
}

#[test]
fn the_same_cases_for_a_seed() {
    let cases = |seed: u64| -> Vec<JoinCase> {
        let mut rng = Prng::new(seed);
        (0..200).map(|_| join_case(&mut rng)).collect()
    };
    assert_eq!(cases(3), cases(3));
    assert_ne!(cases(3), cases(4));
}
