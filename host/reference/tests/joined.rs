//! Two nets side by side: answers and bytes, and what the joint net does.

mod tables;

use reference::check::{NODE, Verdict, check};
use reference::formula::FORMULA;
use reference::joined::{Half, Joined, join};
use reference::net::{Firing, MARK, Net, TRANSITION, below, fire};
use reference::written::Written;
use reference::{Refusal, pnml, written};

use tables::{NET_R, ask, table};

/// What rooms are filled with before a call.
const FILL: u8 = 0xA5;

/// A net with its marking.
#[derive(Clone, Debug, PartialEq, Eq)]
struct Part {
    places: u32,
    marking: u64,
    net: Vec<u8>,
}

impl Part {
    fn half(&self) -> Half<'_> {
        Half {
            places: self.places,
            marking: self.marking,
            net: &self.net,
        }
    }

    fn count(&self) -> usize {
        self.net.len() / TRANSITION
    }

    fn at(&self, marking: u64) -> Part {
        Part {
            marking,
            ..self.clone()
        }
    }

    fn of(&self, places: u32) -> Part {
        Part {
            places,
            ..self.clone()
        }
    }

    /// The same with another length of the table.
    fn resized(&self, length: usize) -> Part {
        let mut part = self.clone();
        part.net.resize(length, 0);
        part
    }

    /// The same with one byte changed.
    fn changed(&self, at: usize, value: u8) -> Part {
        let mut part = self.clone();
        part.net[at] = value;
        part
    }
}

fn part(places: u32, marking: u64, rows: &[(u64, u64, u16)]) -> Part {
    Part {
        places,
        marking,
        net: table(rows),
    }
}

fn net_r() -> Part {
    part(3, 3, &NET_R)
}

/// A ring with so many places and transitions, a token in the last place.
fn ring(places: u32, transitions: usize) -> Part {
    let bit = |t: usize| 1 << (t % places as usize);
    let row = |t: usize| (bit(t), bit(t + 1), t as u16);
    let rows: Vec<(u64, u64, u16)> = (0..transitions).map(row).collect();
    part(places, 1 << (places - 1), &rows)
}

fn refusal(number: u32) -> Refusal {
    refusal_at(number, 0)
}

fn refusal_at(number: u32, record: u64) -> Refusal {
    Refusal { number, record }
}

/// What the join answers and writes, with so much room. What it does not write must be
/// as it was.
fn joined_in(first: &Part, second: &Part, room: usize) -> Result<Part, Refusal> {
    let mut room = vec![FILL; room];
    let answer = join(first.half(), second.half(), &mut room);
    let rest = room.split_off(answer.map_or(0, |joined| joined.length));
    assert!(rest.iter().all(|&b| b == FILL));
    let Joined {
        places, marking, ..
    } = answer?;
    Ok(Part {
        places,
        marking,
        net: room,
    })
}

/// The joint net with exact room, the same with more and refused with less of it.
fn joined(first: &Part, second: &Part) -> Part {
    let length = first.net.len() + second.net.len();
    let part = joined_in(first, second, length).expect("two good nets");
    for more in [1, TRANSITION, 1000] {
        let other = joined_in(first, second, length + more);
        assert_eq!(other.as_ref(), Ok(&part));
    }
    for room in [0, first.net.len(), length - TRANSITION, length - 1] {
        refuses_in(first, second, room, refusal(12));
    }
    part
}

fn refuses_in(first: &Part, second: &Part, room: usize, expected: Refusal) {
    assert_eq!(joined_in(first, second, room), Err(expected));
}

/// The refusal comes with room enough and without.
fn refuses(first: &Part, second: &Part, expected: Refusal) {
    for room in [0, 1, 64 * TRANSITION, 200 * TRANSITION] {
        refuses_in(first, second, room, expected);
    }
}

/// Sees that two nets become one with these places, this marking and these records.
fn becomes(first: &Part, second: &Part, expected: &Part) {
    let found = joined(first, second);
    assert_eq!(&found, expected);
    like_the_halves(first, second, &found);
    conflicts_stay(first, second, &found);
}

/// What a firing in a half is in the joint net: its sets begin at place `shift`, and the
/// other half is marked with `other`.
fn seen_from_both(firing: Firing, shift: u32, other: u64) -> Firing {
    match firing {
        Firing::Fired { after } => Firing::Fired {
            after: after << shift | other,
        },
        Firing::NotEnabled { missing, occupied } => Firing::NotEnabled {
            missing: missing << shift,
            occupied: occupied << shift,
        },
        refused => refused,
    }
}

/// Sees that each transition of the joint net does at its marking what it does in its
/// half, with no change of the other half's places.
fn like_the_halves(first: &Part, second: &Part, both: &Part) {
    let (count, shift) = (first.count(), first.places);
    let fired = |part: &Part, t: usize| fire(part.places, part.marking, &part.net, t as u32);
    for t in 0..count {
        let other = second.marking << shift;
        let expected = seen_from_both(fired(first, t), 0, other);
        assert_eq!(fired(both, t), expected);
    }
    for t in 0..second.count() {
        let expected = seen_from_both(fired(second, t), shift, first.marking);
        assert_eq!(fired(both, count + t), expected);
    }
    let refused = Firing::Refused(refusal(8));
    assert_eq!(fired(both, count + second.count()), refused);
}

/// Sees that a transition conflicts with those of its half as there, and with no other.
fn conflicts_stay(first: &Part, second: &Part, both: &Part) {
    let decode = |part: &Part| Net::decode(part.places, &part.net).expect("a good net");
    let (low, high, both) = (decode(first), decode(second), decode(both));
    assert_eq!(both.count, low.count + high.count);
    assert_eq!(both.conflict[..low.count], low.conflict[..low.count]);
    for t in 0..high.count {
        let moved = high.conflict[t] << low.count;
        assert_eq!(both.conflict[low.count + t], moved);
        assert_eq!(both.action[low.count + t], high.action[t]);
    }
    assert_eq!(both.action[..low.count], low.action[..low.count]);
    assert_eq!(both.pressed, low.pressed | high.pressed << low.count);
}

/// The same as `becomes` at every pair of markings.
fn worth_at_all_markings(first: &Part, second: &Part) {
    for low in 0..1 << first.places {
        for high in 0..1 << second.places {
            let (first, second) = (first.at(low), second.at(high));
            let both = joined(&first, &second);
            assert_eq!(both.places, first.places + second.places);
            assert_eq!(both.marking, low + (high << first.places));
            like_the_halves(&first, &second, &both);
            conflicts_stay(&first, &second, &both);
        }
    }
}

#[test]
fn r_beside_r() {
    let rows = [
        (1, 1, 1),
        (2, 4, 2),
        (4, 0, 3),
        (8, 8, 1),
        (16, 32, 2),
        (32, 0, 3),
    ];
    becomes(&net_r(), &net_r(), &part(6, 27, &rows));
    becomes(&net_r().at(0), &net_r(), &part(6, 24, &rows));
    becomes(&net_r(), &net_r().at(0), &part(6, 3, &rows));
    becomes(&net_r(), &net_r().at(7), &part(6, 59, &rows));
}

#[test]
fn one_place_each() {
    let (step, source) = (part(1, 1, &[(1, 0, 5)]), part(1, 0, &[(0, 1, 6)]));
    becomes(&step, &source, &part(2, 1, &[(1, 0, 5), (0, 2, 6)]));
    becomes(&source, &step, &part(2, 2, &[(0, 1, 6), (2, 0, 5)]));
}

#[test]
fn more_places_than_transitions_and_fewer() {
    let (wide, narrow) = (part(9, 256, &[(256, 1, 1)]), ring(2, 5));
    let both = joined(&wide, &narrow);
    assert_eq!((both.places, both.marking), (11, 256 + 1024));
    becomes(&wide, &narrow, &both);
    becomes(&narrow, &wide, &joined(&narrow, &wide));
    // The places that no transition touches count too.
    let last = &both.net[5 * TRANSITION..];
    assert_eq!(last, table(&[(512, 1024, 4)]));
}

/// A transition that touches no place touches none in the joint net.
#[test]
fn no_place_touched() {
    let nothing = part(2, 2, &[(0, 0, 7), (0, 0, u16::MAX)]);
    let rows = [(1, 1, 1), (2, 4, 2), (4, 0, 3), (0, 0, 7), (0, 0, u16::MAX)];
    becomes(&net_r(), &nothing, &part(5, 19, &rows));
    let both = joined(&nothing, &nothing);
    let net = Net::decode(both.places, &both.net).expect("a good net");
    assert_eq!(net.next(both.marking), 0b1111);
    assert_eq!(net.conflict[..4], [1, 2, 4, 8]);
    worth_at_all_markings(&nothing, &nothing);
}

#[test]
fn optional_marks_are_kept() {
    let marked = |mut part: Part, optional: &[usize]| {
        let set = |&t: &usize| part.net[t * TRANSITION + MARK] = 1;
        optional.iter().for_each(set);
        part
    };
    let optional: [&[usize]; 5] = [&[], &[0], &[1], &[2], &[0, 1, 2]];
    for (low, high) in optional.iter().flat_map(|l| optional.map(|h| (*l, h))) {
        let (first, second) = (marked(net_r(), low), marked(net_r(), high));
        let moved = high.iter().map(|t| t + 3);
        let all: Vec<usize> = low.iter().copied().chain(moved).collect();
        let expected = marked(joined(&net_r(), &net_r()), &all);
        becomes(&first, &second, &expected);
    }
}

#[test]
fn sums_of_64() {
    for (places, transitions) in [(32, 32), (1, 1), (63, 63), (1, 63), (63, 1), (7, 60)] {
        let first = ring(places, transitions);
        let second = ring(64 - places, 64 - transitions);
        let both = joined(&first, &second);
        assert_eq!(both.places, 64);
        assert_eq!(both.marking, 1 << 63 | 1 << (places - 1));
        assert_eq!(both.net.len(), 64 * TRANSITION);
        becomes(&first, &second, &both);
        let (low, high) = (below(places), below(64 - places));
        for (low, high) in [(0, 0), (low, 0), (0, high), (low, high)] {
            let (first, second) = (first.at(low), second.at(high));
            let both = joined(&first, &second);
            assert_eq!(both.marking, low + (high << places));
            like_the_halves(&first, &second, &both);
        }
    }
    // The last of the 32 and 32: from place 63 back to place 32.
    let both = joined(&ring(32, 32), &ring(32, 32));
    let last = &both.net[63 * TRANSITION..];
    assert_eq!(last, table(&[(1 << 63, 1 << 32, 31)]));
}

#[test]
fn sums_above_64() {
    // Places.
    for (low, high) in [(33, 32), (32, 33), (64, 1), (1, 64), (64, 64), (63, 2)] {
        refuses(&ring(low, 1), &ring(high, 1), refusal(15));
        refuses(&ring(low, 32), &ring(high, 32), refusal(15));
    }
    // Transitions, on few places.
    for (low, high) in [(33, 32), (32, 33), (64, 1), (1, 64), (64, 64), (63, 2)] {
        refuses(&ring(2, low), &ring(3, high), refusal(15));
        refuses(&ring(1, low), &ring(63, high), refusal(15));
    }
    // Both.
    refuses(&ring(64, 64), &ring(64, 64), refusal(15));
}

/// Faulty nets, each with its refusal.
fn faulty() -> Vec<(Part, Refusal)> {
    let r = net_r();
    let mut list = vec![
        // A set within the joint places alone, and the lower of two.
        (r.of(2), refusal_at(3, 1)),
        (r.changed(48, 8).changed(24, 8), refusal_at(3, 1)),
        // Each before the next.
        (r.resized(0).of(0).at(8), refusal(1)),
        (r.changed(18, 2).of(65).at(8), refusal(1)),
        (r.changed(18, 2).resized(71).at(8), refusal(2)),
        (r.changed(48 + 18, 2).at(8), refusal_at(3, 2)),
    ];
    for places in [0, 65, 66, 128, 256, 259, u32::MAX] {
        list.push((r.of(places), refusal(1)));
    }
    for length in [0, 1, 23, 25, 71, 73, 65 * TRANSITION, 128 * TRANSITION] {
        list.push((r.resized(length), refusal(2)));
    }
    for (at, value, record) in [
        (0, 8, 0),
        (7, 128, 0),
        (8, 9, 0),
        (15, 128, 0),
        (18, 2, 0),
        (18, 255, 0),
        (24 + 19, 1, 1),
        (24 + 23, 128, 1),
        (48 + 20, 1, 2),
        (48, 12, 2),
    ] {
        list.push((r.changed(at, value), refusal_at(3, record)));
    }
    for marking in [8, 11, 1 << 63, u64::MAX] {
        list.push((r.at(marking), refusal(7)));
    }
    list
}

#[test]
fn a_faulty_half() {
    let good = [net_r(), ring(1, 1), ring(64, 64)];
    for (part, expected) in faulty() {
        for good in &good {
            refuses(&part, good, expected);
            refuses(good, &part, expected);
        }
    }
}

#[test]
fn two_faulty_halves() {
    let list = faulty();
    for (first, expected) in &list {
        for (second, _) in &list {
            refuses(first, second, *expected);
        }
    }
}

/// 15 comes after each refusal of a half, and before 12.
#[test]
fn the_order_of_the_answers() {
    let large = ring(64, 64);
    refuses(&large, &large.changed(18, 2), refusal_at(3, 0));
    refuses(&large.changed(63 * 24 + 23, 1), &large, refusal_at(3, 63));
    refuses_in(&large, &large, 0, refusal(15));
    refuses_in(&large, &large, 127 * TRANSITION, refusal(15));
    refuses_in(&net_r(), &net_r(), 0, refusal(12));
    refuses_in(&net_r(), &net_r(), 6 * TRANSITION - 1, refusal(12));
    // A fault of the second counts though the room is too short and the sums too large.
    let beyond = ring(63, 64).at(1 << 63);
    refuses(&large, &beyond, refusal(7));
    refuses(&beyond, &large, refusal(7));
}

/// All transitions that there can be on so many places.
fn all_transitions(places: u32) -> Part {
    let sets = 1 << places;
    let row = |n: u64| (n / sets, n % sets, n as u16);
    let rows: Vec<(u64, u64, u16)> = (0..sets * sets).map(row).collect();
    part(places, 0, &rows)
}

#[test]
fn every_transition_at_every_marking() {
    let (one, two) = (all_transitions(1), all_transitions(2));
    worth_at_all_markings(&one, &one);
    worth_at_all_markings(&one, &two);
    worth_at_all_markings(&two, &one);
    worth_at_all_markings(&two, &two);
    // Each of the 64 transitions on three places, beside R and beside all on two.
    let three = all_transitions(3);
    for rows in three.net.chunks(16 * TRANSITION) {
        let some = Part {
            net: rows.to_vec(),
            ..three.clone()
        };
        worth_at_all_markings(&some, &two);
        worth_at_all_markings(&two, &some);
        worth_at_all_markings(&net_r(), &some);
    }
}

/// Three nets in a row are the same whichever two are joined first.
#[test]
fn three_in_a_row() {
    let (a, b, c) = (net_r(), ring(5, 4), part(2, 1, &[(1, 2, 9), (0, 0, 1)]));
    let left = joined(&joined(&a, &b), &c);
    let right = joined(&a, &joined(&b, &c));
    assert_eq!(left, right);
}

/// The check, the writer of trees and both directions of PNML take the joint net.
#[test]
fn the_joint_net_passes_the_checks() {
    let formulas = [0; FORMULA];
    for both in [
        joined(&net_r(), &net_r()),
        joined(&ring(32, 32), &ring(32, 32)),
        joined(&ring(63, 1), &ring(1, 63)),
    ] {
        let ask = ask(both.marking, 0, both.places as u8, 0);
        let mut tree = [0; NODE];
        let answer = written::write(&ask, &both.net, &formulas, &mut tree);
        assert_eq!(answer, Ok(Written { side: 0, nodes: 1 }));
        let verdict = check(&ask, &both.net, &formulas, &tree);
        assert_eq!(verdict, Verdict::Accepted { nodes: 1 });
        let mut text = vec![0; 100_000];
        let length = pnml::write(both.places, both.marking, &both.net, &mut text);
        let mut room = vec![0; both.net.len()];
        let read = pnml::read(&text[..length.expect("a good net")], &mut room);
        let read = read.expect("a written text");
        assert_eq!((read.places, read.marking), (both.places, both.marking));
        assert_eq!(room, both.net);
    }
}
