//! The trees that are written for formulas without "until".

mod formulas;
mod tables;

use reference::Refusal;
use reference::check::{NODE, NODES, Node, Verdict, check};
use reference::formula::{ALL, AND, NOT, SOME, STEP, TRUE};
use reference::rules::{FAILS, HOLDS};
use reference::written::{Written, measure, write};

use formulas::{Row, formulas};
use tables::{NET_R, ask, table};

/// What rooms are filled with before a call.
const FILL: u8 = 0xA5;

fn refused(number: u32, record: u64) -> Result<Written, Refusal> {
    Err(Refusal { number, record })
}

/// R's formulas, then 3 = step(2) of 1, 4 = not 3, 5 = and(3, 1), 6 = and(1, 3).
const ROWS_R: [Row; 7] = [
    (TRUE, 0, 0, 0),
    (STEP, 0, 0, 3),
    (ALL, 0, 1, 0),
    (STEP, 1, 0, 2),
    (NOT, 3, 0, 0),
    (AND, 3, 1, 0),
    (AND, 1, 3, 0),
];

/// A net, a formula table and room.
struct Desk {
    net: Vec<u8>,
    formulas: Vec<u8>,
    room: Vec<u8>,
}

impl Desk {
    fn new(net: &[(u64, u64, u16)], rows: &[Row], room: usize) -> Desk {
        Desk {
            net: table(net),
            formulas: formulas(rows),
            room: vec![FILL; room],
        }
    }

    /// The writer's answer. What it does not write must be as it was; what it
    /// writes must be accepted for the side that it says, whichever was asked.
    fn write(&mut self, marking: u64, formula: u16) -> Result<Written, Refusal> {
        let [holds, fails] = [HOLDS, FAILS].map(|side| ask(marking, formula, 3, side));
        self.room.fill(FILL);
        let answer = write(&holds, &self.net, &self.formulas, &mut self.room);
        let first = self.room.clone();
        self.room.fill(FILL);
        let again = write(&fails, &self.net, &self.formulas, &mut self.room);
        assert_eq!((again, &first), (answer, &self.room));
        let length = answer.map_or(0, |written| written.nodes as usize * NODE);
        let (tree, rest) = self.room.split_at(length);
        assert!(rest.iter().all(|&b| b == FILL));
        if let Ok(Written { side, nodes }) = answer {
            let verdict = |ask: &[u8]| check(ask, &self.net, &self.formulas, tree);
            let asks = [&holds, &fails];
            assert_eq!(
                verdict(asks[usize::from(side)]),
                Verdict::Accepted { nodes }
            );
            let other = verdict(asks[usize::from(1 - side)]);
            assert_eq!(other, Verdict::Broken { fault: 22, node: 0 });
        }
        answer
    }

    /// The nodes that are written: marking, formula, side, rule, transition, parent,
    /// first child and children of each. All else in them is zero.
    fn nodes(&mut self, marking: u64, formula: u16) -> Vec<[u64; 8]> {
        let written = self.write(marking, formula).expect("a tree");
        let records = self.room.chunks_exact(NODE).take(written.nodes as usize);
        let numbers = |record: &[u8]| {
            let node = Node::read(record.try_into().unwrap());
            let s = node.sequent;
            assert_eq!((s.anchor, s.kept, s.phase, s.round), (0, 0, 0, 0));
            [
                s.marking,
                s.formula.into(),
                s.side.into(),
                node.rule.into(),
                node.transition.into(),
                node.parent.into(),
                node.first.into(),
                node.children.into(),
            ]
        };
        records.map(numbers).collect()
    }
}

#[test]
fn net_r() {
    let mut desk = Desk::new(&NET_R, &ROWS_R, 1000);
    let mut answer = |marking, formula| desk.write(marking, formula);
    let written = |side, nodes| Ok(Written { side, nodes });
    assert_eq!(answer(3, 0), written(HOLDS, 1));
    assert_eq!(answer(3, 1), written(FAILS, 1));
    assert_eq!(answer(5, 1), written(HOLDS, 2));
    assert_eq!(answer(3, 2), refused(14, 0));
    assert_eq!(answer(3, 3), written(HOLDS, 3));
    assert_eq!(answer(3, 4), written(FAILS, 4));
    assert_eq!(answer(3, 5), written(FAILS, 2));
    assert_eq!(answer(3, 6), written(FAILS, 2));
    let by_23 = [[3, 5, 1, 23, 0, 0, 1, 1], [3, 1, 1, 24, 0, 0, 0, 0]];
    let by_22 = [[3, 6, 1, 22, 0, 0, 1, 1], [3, 1, 1, 24, 0, 0, 0, 0]];
    assert_eq!(desk.nodes(3, 5), by_23);
    assert_eq!(desk.nodes(3, 6), by_22);
    assert_eq!(
        desk.nodes(3, 4),
        [
            [3, 4, 1, 21, 0, 0, 1, 1],
            [3, 3, 0, 2, 1, 0, 2, 1],
            [5, 1, 0, 2, 2, 1, 3, 1],
            [1, 0, 0, 15, 0, 2, 0, 0],
        ]
    );
}

/// From place 0 action 5 leads to place 1 by t0, to place 2 by t1 and t2; action 7 is
/// enabled at place 2 alone.
const FORK: [(u64, u64, u16); 5] = [(1, 2, 5), (1, 4, 5), (1, 4, 5), (1, 4, 6), (4, 0, 7)];

#[test]
fn operators() {
    let rows = [
        (TRUE, 0, 0, 0),
        (STEP, 0, 0, 7),
        (NOT, 1, 0, 0),
        (AND, 2, 0, 0),
        (STEP, 1, 0, 5),
        (STEP, 0, 0, 5),
        (NOT, 0, 0, 0),
        (STEP, 6, 0, 5),
        (STEP, 0, 0, 9),
        (AND, 6, 6, 0),
        (AND, 0, 6, 0),
    ];
    let mut desk = Desk::new(&FORK, &rows, 1000);
    let leaf = |marking, parent| [marking, 0, 0, 15, 0, parent, 0, 0];
    assert_eq!(desk.nodes(1, 0), [leaf(1, 0)]);
    assert_eq!(
        desk.nodes(1, 2),
        [[1, 2, 0, 16, 0, 0, 1, 1], [1, 1, 1, 24, 0, 0, 0, 0]]
    );
    assert_eq!(desk.nodes(1, 6), [[1, 6, 1, 21, 0, 0, 1, 1], leaf(1, 0)]);
    // Left and right, then what is below left.
    assert_eq!(
        desk.nodes(1, 3),
        [
            [1, 3, 0, 1, 0, 0, 1, 2],
            [1, 2, 0, 16, 0, 0, 3, 1],
            leaf(1, 0),
            [1, 1, 1, 24, 0, 1, 0, 0],
        ]
    );
    // Left fails, also where right fails too.
    assert_eq!(desk.nodes(1, 9)[0], [1, 9, 1, 22, 0, 0, 1, 1]);
    assert_eq!(desk.nodes(1, 10)[0], [1, 10, 1, 23, 0, 0, 1, 1]);
    // t0 leads where operand 1 fails, t1 and t2 where it holds.
    assert_eq!(
        desk.nodes(1, 4),
        [
            [1, 4, 0, 2, 1, 0, 1, 1],
            [4, 1, 0, 2, 4, 0, 2, 1],
            leaf(0, 1),
        ]
    );
    assert_eq!(desk.nodes(1, 5), [[1, 5, 0, 2, 0, 0, 1, 1], leaf(2, 0)]);
    // Three children, then what is below each; none where nothing has the action.
    assert_eq!(
        desk.nodes(1, 7),
        [
            [1, 7, 1, 24, 0, 0, 1, 3],
            [2, 6, 1, 21, 0, 0, 4, 1],
            [4, 6, 1, 21, 0, 0, 5, 1],
            [4, 6, 1, 21, 0, 0, 6, 1],
            leaf(2, 1),
            leaf(4, 2),
            leaf(4, 3),
        ]
    );
    assert_eq!(desk.nodes(1, 8), [[1, 8, 1, 24, 0, 0, 0, 0]]);
}

/// Record 0, then so many "and"s of the record before with itself, then "not"s.
fn chain(ands: u16, nots: u16) -> Vec<Row> {
    let and = (0..ands).map(|k| (AND, k, k, 0));
    let not = (ands..ands + nots).map(|k| (NOT, k, 0, 0));
    [(TRUE, 0, 0, 0)]
        .into_iter()
        .chain(and)
        .chain(not)
        .collect()
}

#[test]
fn numbers() {
    // A child with all below it, then the next child.
    let nodes = Desk::new(&NET_R, &chain(3, 0), 15 * NODE).nodes(3, 3);
    let first: Vec<u64> = nodes.iter().map(|node| node[6]).collect();
    let parent: Vec<u64> = nodes.iter().map(|node| node[5]).collect();
    assert_eq!(first, [1, 3, 9, 5, 7, 0, 0, 0, 0, 11, 13, 0, 0, 0, 0]);
    assert_eq!(parent, [0, 0, 0, 1, 1, 3, 3, 4, 4, 2, 2, 9, 9, 10, 10]);
}

#[test]
fn rooms() {
    // Formula 3 has three nodes.
    for (room, fits) in [
        (0, false),
        (1, false),
        (119, false),
        (120, true),
        (159, true),
    ] {
        let answer = Desk::new(&NET_R, &ROWS_R, room).write(3, 3);
        let three = Ok(Written {
            side: HOLDS,
            nodes: 3,
        });
        assert_eq!(answer, if fits { three } else { refused(12, 0) });
    }
}

#[test]
fn limits() {
    let largest = NODES * NODE;
    let answer = |ands, nots, room| {
        let mut desk = Desk::new(&NET_R, &chain(ands, nots), room);
        desk.write(3, ands + nots)
    };
    let written = |side, nodes| Ok(Written { side, nodes });
    assert_eq!(answer(15, 0, 65_535 * NODE), written(HOLDS, 65_535));
    assert_eq!(answer(15, 0, 65_535 * NODE - 1), refused(12, 0));
    assert_eq!(answer(15, 1, largest + 1), written(FAILS, 65_536));
    assert_eq!(answer(15, 1, largest - 1), refused(12, 0));
    assert_eq!(answer(15, 2, largest), refused(12, 0));
    assert_eq!(answer(15, 2, largest + NODE), refused(12, 0));
    assert_eq!(answer(0, 255, 256 * NODE), written(FAILS, 256));
    assert_eq!(answer(255, 0, largest), refused(12, 0));
    // Left of the last "and" holds, by a tree that is too large; right fails.
    let mut rows = chain(253, 0);
    rows.extend([(NOT, 0, 0, 0), (AND, 253, 254, 0)]);
    let mut desk = Desk::new(&NET_R, &rows, 3 * NODE);
    assert_eq!(desk.write(3, 255), written(FAILS, 3));
}

#[test]
fn untils() {
    // 2 and 5 are untils; 3 has neither, 4 has 2, 6 has 5, 7 has 2 below 4.
    for until in [SOME, ALL] {
        let rows = [
            (TRUE, 0, 0, 0),
            (NOT, 0, 0, 0),
            (until, 0, 1, 0),
            (AND, 1, 0, 0),
            (STEP, 2, 0, 9),
            (until, 0, 0, 0),
            (AND, 1, 5, 0),
            (AND, 3, 4, 0),
        ];
        let mut desk = Desk::new(&NET_R, &rows, 1000);
        let number = |answer: Result<Written, Refusal>| answer.map_or_else(|r| r.number, |_| 0);
        let numbers: Vec<u32> = (0..9).map(|f| number(desk.write(3, f))).collect();
        assert_eq!(numbers, [0, 0, 14, 0, 14, 14, 14, 14, 7]);
        // 14 comes before 12.
        let mut short = Desk::new(&NET_R, &rows, 0);
        let numbers: Vec<u32> = (0..4).map(|f| number(short.write(3, f))).collect();
        assert_eq!(numbers, [12, 12, 14, 12]);
    }
}

#[test]
fn refusals() {
    let (good, net, table) = (ask(3, 2, 3, 0), table(&NET_R), formulas(&ROWS_R));
    let answer = |ask: &[u8], net: &[u8], formulas: &[u8]| {
        let answer = write(ask, net, formulas, &mut []);
        assert_eq!(answer, measure(ask, net, formulas));
        answer
    };
    assert_eq!(answer(&[], &[], &[]), refused(1, 0));
    assert_eq!(answer(&ask(3, 2, 3, 2), &[], &[]), refused(1, 0));
    assert_eq!(answer(&ask(3, 2, 65, 0), &[], &[]), refused(1, 0));
    assert_eq!(answer(&good, &[], &[]), refused(2, 0));
    assert_eq!(answer(&ask(8, 2, 2, 0), &net, &[]), refused(3, 1));
    assert_eq!(answer(&ask(8, 2, 3, 0), &net, &[]), refused(4, 0));
    assert_eq!(answer(&ask(8, 2, 3, 0), &net, &table[8..]), refused(5, 0));
    assert_eq!(answer(&ask(8, 2, 3, 0), &net, &table), refused(7, 0));
    assert_eq!(answer(&ask(3, 7, 3, 0), &net, &table), refused(7, 0));
    assert_eq!(answer(&good, &net, &table), refused(14, 0));
}
