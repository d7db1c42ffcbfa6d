//! Document 01's samples of nets, firings and sizes, the meaning on net R,
//! optional transitions, and why a step is not enabled.

mod tables;

use reference::Refusal;
use reference::check::{Verdict, check};
use reference::formula::{ALL, Formula, STEP};
use reference::meaning::{Graph, evaluate};
use reference::net::{Firing, Net, fire};

use tables::{NET_R, ask, table};

/// The table with these transitions optional.
fn marked(mut table: Vec<u8>, optional: &[usize]) -> Vec<u8> {
    optional.iter().for_each(|t| table[24 * t + 18] = 1);
    table
}

fn fired(after: u64) -> Firing {
    Firing::Fired { after }
}

fn not_enabled(missing: u64, occupied: u64) -> Firing {
    Firing::NotEnabled { missing, occupied }
}

fn refused(number: u32, record: u64) -> Firing {
    Firing::Refused(Refusal { number, record })
}

#[test]
fn firings() {
    let step = table(&[(1, 2, 0)]);
    assert_eq!(fire(2, 1, &step, 0), fired(2));
    assert_eq!(fire(2, 3, &step, 0), not_enabled(0, 2));
    assert_eq!(fire(1, 1, &table(&[(1, 1, 0)]), 0), fired(1));
    let r = table(&NET_R);
    assert_eq!(fire(3, 3, &r, 3), refused(8, 0));
    assert_eq!(fire(3, 3, &r, 2), not_enabled(4, 0));
    assert_eq!(fire(3, 3, &r, 1), fired(5));
}

#[test]
fn reasons() {
    let answer = |(pre, post): (u64, u64), marking: u64| {
        let net = table(&[(pre, post, 0)]);
        fire(64, marking, &net, 0)
    };
    assert_eq!(answer((1, 2), 0), not_enabled(1, 0));
    assert_eq!(answer((1, 2), 2), not_enabled(1, 2));
    // A place in pre and post is missing where it is empty, and never occupied.
    assert_eq!(answer((3, 3), 0), not_enabled(3, 0));
    assert_eq!(answer((3, 3), 1), not_enabled(2, 0));
    assert_eq!(answer((3, 3), 3), fired(3));
    assert_eq!(answer((1, 3), 3), not_enabled(0, 2));
    assert_eq!(answer((3, 5), 5), not_enabled(2, 4));
    assert_eq!(answer((3, 5), 13), not_enabled(2, 4));
    // All 64 places.
    let (top, all) = (1 << 63, u64::MAX);
    let (high, low) = (all << 32, all >> 32);
    assert_eq!(answer((top, 1), 1), not_enabled(top, 1));
    assert_eq!(answer((1, top), top), not_enabled(1, top));
    assert_eq!(answer((all, 0), 0), not_enabled(all, 0));
    assert_eq!(answer((0, all), all), not_enabled(0, all));
    assert_eq!(answer((high, low), low), not_enabled(high, low));
    assert_eq!(not_enabled(6, 9).numbers(), (41, 0, 0, 6, 9));
    assert_eq!(fired(6).numbers(), (0, 0, 6, 0, 0));
    assert_eq!(refused(3, 6).numbers(), (3, 6, 0, 0, 0));
}

#[test]
fn conflicts() {
    let r = Net::decode(3, &table(&NET_R)).unwrap();
    assert_eq!(r.conflict[..3], [0b001, 0b110, 0b110]);
    let idle = Net::decode(3, &table(&[(0, 0, 1), (1, 1, 1), (0, 0, 1)])).unwrap();
    assert_eq!(idle.conflict[..3], [0b001, 0b010, 0b100]);
}

#[test]
fn sizes() {
    let refused = |number| Verdict::Refused { number, record: 0 };
    let r = table(&NET_R);
    let truth = [0; 8];
    let mut leaf = [0; 40];
    leaf[0..8].copy_from_slice(&(1u64 << 63).to_le_bytes());
    leaf[35] = 15;
    let top = 1 << 63;
    let accepted = Verdict::Accepted { nodes: 1 };
    assert_eq!(check(&ask(top, 0, 64, 0), &r, &truth, &leaf), accepted);
    assert_eq!(check(&ask(top, 0, 63, 0), &r, &truth, &leaf), refused(7));
    let not = [1, 0, 0, 0, 0, 0, 0, 0];
    assert_eq!(check(&ask(3, 0, 3, 0), &r, &not, &leaf), refused(5));
    let nodes = vec![0; 65_537 * 40];
    assert_eq!(check(&ask(3, 0, 3, 0), &r, &truth, &nodes), refused(6));
}

#[test]
fn marks() {
    let r = table(&NET_R);
    let optional = marked(r.clone(), &[0, 2]);
    let (all, some) = (
        Net::decode(3, &r).unwrap(),
        Net::decode(3, &optional).unwrap(),
    );
    assert_eq!((all.pressed, some.pressed), (0b111, 0b010));
    assert_eq!((some.next(7), some.pressed_next(7)), (0b101, 0));
    assert_eq!((some.next(3), some.pressed_next(3)), (0b011, 0b010));
    assert_eq!(some.conflict, all.conflict);
    assert_eq!(fire(3, 3, &optional, 0), fired(3));
    assert_eq!(fire(3, 3, &optional, 2), not_enabled(4, 0));
    for (byte, values) in [
        (18, &[2, 3, 128, 255][..]),
        (19, &[1]),
        (21, &[255]),
        (23, &[1]),
    ] {
        for &value in values {
            let mut faulty = optional.clone();
            faulty[24 + byte] = value;
            let refusal = Net::decode(3, &faulty).unwrap_err();
            assert_eq!((refusal.number, refusal.record), (3, 1));
            assert_eq!(fire(3, 3, &faulty, 0), Firing::Refused(refusal));
        }
    }
}

#[test]
fn meaning() {
    let formula = |operator, left, right, action| Formula {
        operator,
        left,
        right,
        action,
    };
    let formulas = [
        formula(0, 0, 0, 0),
        formula(STEP, 0, 0, 3),
        formula(ALL, 0, 1, 0),
    ];
    let holds_with = |rows: &[(u64, u64, u16)], optional: &[usize], marking: u64| {
        let net = Net::decode(3, &marked(table(rows), optional)).unwrap();
        let graph = Graph::reachable(&net, marking, 100).unwrap();
        evaluate(&net, &graph, &formulas, 2)[2][0]
    };
    let holds = |rows: &[(u64, u64, u16)], marking: u64| holds_with(rows, &[], marking);
    assert!(holds(&NET_R, 3));
    assert!(!holds(&NET_R, 1));
    assert!(!holds(&NET_R, 0));
    assert!(!holds(&NET_R[..1], 1));
    // Two loops, each with its own waiting transition: one transition waits
    // while the other goes round, but together they pass over none.
    assert!(!holds(&[(1, 1, 1), (2, 2, 1)], 3));
    // Where t1 is optional, t0 may go round for ever, or nothing be fired at all.
    assert!(!holds_with(&NET_R, &[1], 3));
    assert!(!holds_with(&NET_R, &[1], 2));
    assert!(!holds_with(&NET_R, &[0, 1], 3));
    // Where it is pressed it is not passed over for ever.
    assert!(holds_with(&NET_R, &[0], 3));
    assert!(holds_with(&NET_R, &[0, 2], 3));
    // Unless the loop, here of an optional t0, conflicts with it.
    assert!(!holds_with(&[(1, 1, 1), (1, 4, 2), (4, 0, 3)], &[0], 1));
}
