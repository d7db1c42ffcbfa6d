//! Document 01's sample nets and trees, and trees of a given size.

use std::collections::BTreeMap;

use reference::check::{Ask, Node};
use reference::formula::{ALL, AND, Formula, NOT, SOME, STEP};
use reference::net::Net;
use reference::rules::{ANCHORED, FAILS, HOLDS, LOOP, OUTWARD, PLAIN, Sequent};

use crate::cases::TreeCase;
use crate::encode::{self, Transition};
use crate::layout::{Order, lay_out};
use crate::prng::Prng;
use crate::search::{Model, Outcome, prove};

pub(crate) fn formula(operator: u8, left: u16, right: u16, action: u16) -> Formula {
    Formula {
        operator,
        left,
        right,
        action,
    }
}

fn case(places: u8, net: Vec<u8>, formulas: &[Formula], nodes: &[Node]) -> TreeCase {
    let root = &nodes[0].sequent;
    TreeCase {
        ask: encode::ask(&Ask {
            marking: root.marking,
            formula: root.formula,
            places,
            side: root.side,
        }),
        net,
        formulas: encode::formulas(formulas),
        tree: encode::tree(nodes),
    }
}

/// The transitions of net R.
pub const NET_R: [Transition; 3] = [
    Transition {
        pre: 1,
        post: 1,
        action: 1,
    },
    Transition {
        pre: 2,
        post: 4,
        action: 2,
    },
    Transition {
        pre: 4,
        post: 0,
        action: 3,
    },
];

/// The formulas that go with net R.
pub fn formulas_r() -> [Formula; 3] {
    [
        formula(0, 0, 0, 0),
        formula(STEP, 0, 0, 3),
        formula(ALL, 0, 1, 0),
    ]
}

/// Net R, holds: the tree of 23 nodes.
pub fn r_holds() -> TreeCase {
    let net = encode::net(&NET_R);
    let model = model(3, &net, &formulas_r(), 3);
    let claim = Sequent {
        marking: 3,
        formula: 2,
        ..Sequent::default()
    };
    tree_of(3, net, &model, claim, 0).expect("a small tree")
}

fn model(places: u8, net: &[u8], formulas: &[Formula], start: u64) -> Model {
    let net = Net::decode(u32::from(places), net).expect("a good net");
    Model::new(net, formulas.to_vec(), start, 100_000).expect("a small graph")
}

/// A tree for a true claim, if the search stays below 65,537 nodes.
fn tree_of(places: u8, net: Vec<u8>, model: &Model, claim: Sequent, seed: u64) -> Option<TreeCase> {
    let mut rng = Prng::new(seed);
    match prove(model, &mut rng, claim, 65_536) {
        Outcome::Found(built) if built.len() <= 65_536 => {
            let nodes = lay_out(&built, Order::Levels, &mut rng);
            Some(case(places, net, &model.formulas, &nodes))
        }
        _ => None,
    }
}

/// The four nodes of rules 31, 32 (t0), 24 and 33; the last keeps `kept`.
fn loop_nodes(marking: u64, next: u64, kept: u64) -> [Node; 4] {
    let claim = Sequent {
        marking,
        formula: 2,
        side: FAILS,
        ..Sequent::default()
    };
    let anchored = Sequent {
        anchor: marking,
        kept: next,
        phase: LOOP,
        ..claim
    };
    let node = |sequent: Sequent, parent: u32, first: u32, children: u8, rule: u8| Node {
        sequent,
        parent,
        first,
        children,
        rule,
        transition: 0,
    };
    let right = Sequent {
        formula: 1,
        ..claim
    };
    let back = Sequent { kept, ..anchored };
    [
        node(claim, 0, 1, 1, 31),
        node(anchored, 0, 2, 2, 32),
        node(right, 1, 0, 0, 24),
        node(back, 1, 0, 0, 33),
    ]
}

/// Net R, fails, the last node keeping the given set.
pub fn r_fails(kept: u64) -> TreeCase {
    case(
        3,
        encode::net(&NET_R),
        &formulas_r(),
        &loop_nodes(3, 3, kept),
    )
}

/// Net R with t1 optional, fails: the same four nodes, which keep t0 alone and are
/// right.
pub fn r_optional() -> TreeCase {
    let net = encode::marked_net(&NET_R, 1 << 1);
    case(3, net, &formulas_r(), &loop_nodes(3, 1, 0))
}

/// Only place 0 and t0: the same four nodes, which are right.
pub fn one_place() -> TreeCase {
    let net = encode::net(&NET_R[..1]);
    case(1, net, &formulas_r(), &loop_nodes(1, 1, 0))
}

/// A counter: each marking enables one transition, which adds one.
fn counter(digits: usize) -> Vec<Transition> {
    let digit = |i: usize| Transition {
        pre: (1 << i) - 1,
        post: 1 << i,
        action: 1,
    };
    (0..digits).map(digit).collect()
}

/// Operator 4 along `depth` markings of a counter, all on one trail:
/// 2 `depth` + 2 nodes. `depth` is below 65,536.
pub fn trail_chain(depth: usize) -> TreeCase {
    let formulas = [formula(0, 0, 0, 0), formula(SOME, 0, 0, 0)];
    let mut nodes = Vec::with_capacity(2 * depth + 2);
    let sequent = |marking: usize, formula: u16| Sequent {
        marking: marking as u64,
        formula,
        ..Sequent::default()
    };
    let leaf = |marking: usize| Node {
        sequent: sequent(marking, 0),
        parent: 2 * marking as u32,
        rule: 15,
        ..Node::default()
    };
    for marking in 0..=depth {
        let last = marking == depth;
        let k = nodes.len() as u32;
        nodes.push(Node {
            sequent: sequent(marking, 1),
            parent: k.saturating_sub(2),
            first: k + 1,
            children: if last { 1 } else { 2 },
            rule: if last { 3 } else { 4 },
            transition: if last {
                0
            } else {
                marking.trailing_ones() as u8
            },
        });
        nodes.push(leaf(marking));
    }
    case(16, encode::net(&counter(16)), &formulas, &nodes)
}

/// Operator 5 fails along `depth` firings of a loop, with no trail:
/// 3 `depth` + 5 nodes.
pub fn plain_chain(depth: usize) -> TreeCase {
    let net = [Transition {
        pre: 1,
        post: 1,
        action: 1,
    }];
    let formulas = [
        formula(0, 0, 0, 0),
        formula(NOT, 0, 0, 0),
        formula(ALL, 1, 1, 0),
    ];
    let node = |formula: u16, side: u8, parent: usize, first: usize, children: u8, rule: u8| Node {
        sequent: Sequent {
            marking: 1,
            formula,
            side,
            phase: PLAIN,
            ..Sequent::default()
        },
        parent: parent as u32,
        first: first as u32,
        children,
        rule,
        transition: 0,
    };
    let mut nodes = Vec::with_capacity(3 * depth + 5);
    nodes.push(node(2, FAILS, 0, 1, 2, 30));
    let mut parent = 0;
    for _ in 0..depth {
        let first = nodes.len();
        nodes[parent].first = first as u32;
        nodes.push(node(1, FAILS, parent, first + 2, 1, 21));
        nodes.push(node(2, FAILS, parent, 0, 2, 30));
        nodes.push(node(0, HOLDS, first, 0, 0, 15));
        parent = first + 1;
    }
    let first = nodes.len();
    nodes[parent].first = first as u32;
    nodes[parent].rule = 28;
    nodes.push(node(1, FAILS, parent, first + 2, 1, 21));
    nodes.push(node(1, FAILS, parent, first + 3, 1, 21));
    nodes.push(node(0, HOLDS, first, 0, 0, 15));
    nodes.push(node(0, HOLDS, first + 1, 0, 0, 15));
    case(1, encode::net(&net), &formulas, &nodes)
}

/// Rules 6, 7, 8 and 10 where `count` transitions are enabled at one marking,
/// so that the round is `count`: 4 `count` + 2 nodes.
pub fn full_round(count: usize) -> TreeCase {
    marked_round(count, 0)
}

/// The same with these transitions optional: the round is the number of the others,
/// of which there must be one.
pub fn marked_round(count: usize, optional: u64) -> TreeCase {
    let set = u64::MAX >> (64 - count);
    let pressed = set & !optional;
    let loop_at = |t: usize| Transition {
        pre: 1 << t,
        post: 1 << t,
        action: 1,
    };
    let net: Vec<Transition> = (0..count).map(loop_at).collect();
    let formulas = [formula(0, 0, 0, 0), formula(ALL, 0, 0, 0)];
    let plain = Sequent {
        marking: set,
        formula: 1,
        ..Sequent::default()
    };
    let truth = Sequent {
        formula: 0,
        ..plain
    };
    let anchored = Sequent {
        anchor: set,
        kept: pressed,
        phase: ANCHORED,
        round: pressed.count_ones() as u8,
        ..plain
    };
    let outward = Sequent {
        phase: OUTWARD,
        round: anchored.round.saturating_sub(1),
        ..anchored
    };
    let node = |sequent: Sequent, parent: usize, first: usize, rule: u8| Node {
        sequent,
        parent: parent as u32,
        first: first as u32,
        children: u8::from(first > 0),
        rule,
        transition: 0,
    };
    let mut nodes = vec![node(plain, 0, 1, 6), node(truth, 0, 0, 15)];
    nodes[0].children = count as u8 + 1;
    let levels = [(plain, 7), (anchored, 8), (outward, 10), (truth, 15)];
    for (level, (sequent, rule)) in levels.into_iter().enumerate() {
        for _ in 0..count {
            let k = nodes.len();
            let parent = if level == 0 { 0 } else { k - count };
            let first = if level == 3 { 0 } else { k + count };
            nodes.push(node(sequent, parent, first, rule));
        }
    }
    let net = encode::marked_net(&net, optional);
    case(count as u8, net, &formulas, &nodes)
}

/// What a tree is to be found for: a formula holds or fails at a marking.
struct Claim {
    places: u8,
    net: Vec<u8>,
    formulas: Vec<Formula>,
    marking: u64,
    formula: u16,
    side: u8,
}

impl Claim {
    fn tree(self, seed: u64) -> Option<TreeCase> {
        let model = model(self.places, &self.net, &self.formulas, self.marking);
        let claim = Sequent {
            marking: self.marking,
            formula: self.formula,
            side: self.side,
            ..Sequent::default()
        };
        tree_of(self.places, self.net, &model, claim, seed)
    }

    fn push(&mut self, formula: Formula) -> u16 {
        self.formulas.push(formula);
        self.formulas.len() as u16 - 1
    }

    /// A formula that holds, with a tree of so many nodes: operator 2 over
    /// formula 0, which is true, with at most one firing of the action in each
    /// branch.
    fn holding(&mut self, nodes: usize, action: u16, made: &mut BTreeMap<usize, u16>) -> u16 {
        if let Some(&formula) = made.get(&nodes) {
            return formula;
        }
        let formula = match nodes {
            1 => 0,
            2 => self.push(formula(STEP, 0, 0, action)),
            _ => {
                let half = (nodes - 1) / 2;
                let left = self.holding(half, action, made);
                let right = self.holding(nodes - 1 - half, action, made);
                self.push(formula(AND, left, right, 0))
            }
        };
        made.insert(nodes, formula);
        formula
    }

    /// The claim, which has a tree of `own` nodes, beside one that holds, so
    /// that the tree of both has `nodes` nodes.
    fn filled(mut self, own: usize, nodes: usize, action: u16) -> Claim {
        let (claim, own) = match self.side {
            HOLDS => (self.formula, own),
            _ => (self.push(formula(NOT, self.formula, 0, 0)), own + 1),
        };
        let beside = self.holding(nodes - own - 1, action, &mut BTreeMap::new());
        self.formula = self.push(formula(AND, claim, beside, 0));
        self.side = HOLDS;
        self
    }
}

/// Operator 2 in `levels` levels: 2 to the power of `levels` nodes.
pub fn and_tree(levels: u32) -> TreeCase {
    let mut formulas = vec![formula(0, 0, 0, 0)];
    for level in 1..levels as u16 {
        formulas.push(formula(AND, level - 1, level - 1, 0));
    }
    formulas.push(formula(NOT, levels as u16 - 1, 0, 0));
    let claim = Claim {
        places: 3,
        net: encode::net(&NET_R),
        formulas,
        marking: 3,
        formula: levels as u16,
        side: FAILS,
    };
    claim.tree(1).expect("the size is known")
}

/// Operator 2 in `levels` levels over the claim of `r_holds`: 2 to the power of `levels`
/// copies of its tree, and 24 times as many nodes, less one.
pub fn r_copies(levels: u16) -> TreeCase {
    let mut formulas = formulas_r().to_vec();
    formulas.extend((2..2 + levels).map(|claim| formula(AND, claim, claim, 0)));
    let claim = Claim {
        places: 3,
        net: encode::net(&NET_R),
        formulas,
        marking: 3,
        formula: 2 + levels,
        side: HOLDS,
    };
    claim.tree(0).expect("the size is known")
}

fn wide_claim(width: usize, transitions: usize) -> Claim {
    let transition = |t: usize| Transition {
        pre: 1 << (t % 32),
        post: 1 << (t % 32),
        action: if t < width { 1 } else { 2 },
    };
    Claim {
        places: 32,
        net: encode::net(&(0..transitions).map(transition).collect::<Vec<_>>()),
        formulas: vec![
            formula(0, 0, 0, 0),
            formula(STEP, 0, 0, 9),
            formula(STEP, 1, 0, 1),
            formula(STEP, 2, 0, 1),
            formula(STEP, 3, 0, 1),
        ],
        marking: (1 << 32) - 1,
        formula: 4,
        side: FAILS,
    }
}

/// Rule 24 in three levels, each node with `width` children, in a net of
/// `transitions`, all enabled.
pub fn wide_tree(width: usize, transitions: usize) -> TreeCase {
    wide_claim(width, transitions)
        .tree(1)
        .expect("the size is known")
}

/// The same with 39 children each in a net of 64 transitions, 60,880 nodes of
/// 65,536; the rest is operator 2 beside it.
pub fn wide() -> TreeCase {
    wide_claim(39, 64)
        .filled(60_880, 65_536, 1)
        .tree(1)
        .expect("the size is known")
}

fn rings_claim(sizes: &[usize], optional: u64, left: u16) -> Claim {
    let step = |from: usize, to: usize, action: u16| Transition {
        pre: 1 << from,
        post: 1 << to,
        action,
    };
    let mut net = vec![step(0, 1, 2)];
    net.push(Transition {
        pre: 2,
        post: 0,
        action: 3,
    });
    let mut marking = 1;
    let mut used = 2;
    for &size in sizes {
        marking |= 1 << used;
        let place = |i: usize| used + i % size;
        net.extend((0..size).map(|i| step(place(i), place(i + 1), 1)));
        used += size;
    }
    Claim {
        places: used as u8,
        net: encode::marked_net(&net, optional),
        formulas: vec![
            formula(0, 0, 0, 0),
            formula(STEP, 0, 0, 3),
            formula(SOME, 0, 1, 0),
            formula(ALL, left, 1, 0),
        ],
        marking,
        formula: 3,
        side: HOLDS,
    }
}

/// Rings of the given sizes with a token each, beside a process that goes from
/// its first place to its second (action 2), where action 3 is enabled. Claim:
/// on all runs, `left` until action 3 is enabled. The rings can go round for
/// ever, but the process stays enabled and independent of them.
pub fn rings(sizes: &[usize], left: u16) -> Option<TreeCase> {
    rings_claim(sizes, 0, left).tree(0)
}

/// A large tree of this kind, 56,303 nodes of 65,536; the rest is operator 2
/// beside it.
pub fn realistic() -> TreeCase {
    rings_claim(&[6, 1], 0, 0)
        .filled(56_303, 65_536, 1)
        .tree(0)
        .expect("the size is known")
}

/// Rings that are optional, so that the process alone is pressed: 53,635 nodes of
/// 65,536; the rest as before.
pub fn optional_rings() -> TreeCase {
    rings_claim(&[3, 2, 1], 0b1111_1100, 0)
        .filled(53_635, 65_536, 1)
        .tree(0)
        .expect("the size is known")
}
