//! Generated claims on the writer: what it writes is the tree that document 02 says,
//! by the meaning on the graph of reachable markings.

use std::collections::BTreeMap;

use generate::encode::has_until;
use generate::prng::Prng;
use generate::written::{WrittenCase, ands, r_fails, ring, switches, wide, written_case};
use reference::check::{Input, NODE, NODES, Node, Verdict, check};
use reference::formula::{AND, STEP};
use reference::meaning::{Graph, Truth, evaluate};
use reference::net::members;
use reference::rules::HOLDS;
use reference::written::{Written, measure, write};

/// How often each number occurred.
type Counts = BTreeMap<u32, usize>;

fn add(counts: &mut Counts, number: u32) {
    *counts.entry(number).or_default() += 1;
}

fn occurred(counts: &Counts) -> Vec<u32> {
    println!("{counts:?}");
    counts.keys().copied().collect()
}

/// A written tree beside the truth of each formula at each marking.
struct Tree {
    input: Input<'static>,
    graph: Graph,
    truth: Vec<Truth>,
    nodes: Vec<Node>,
}

impl Tree {
    fn new(case: &WrittenCase, bytes: &[u8]) -> Tree {
        let input = Input::without_tree(&case.ask, &case.net, &case.formulas).expect("inputs");
        let graph = Graph::reachable(&input.net, input.ask.marking, 100_000).expect("a graph");
        let truth = evaluate(
            &input.net,
            &graph,
            &input.formulas,
            input.ask.formula.into(),
        );
        let records = bytes.chunks_exact(NODE);
        let nodes = records.map(|record| Node::read(record.try_into().expect("a record")));
        Tree {
            nodes: nodes.collect(),
            input,
            graph,
            truth,
        }
    }

    fn holds(&self, formula: u16, marking: u64) -> bool {
        let marking = self.graph.find(marking).expect("a reachable marking");
        self.truth[usize::from(formula)][marking]
    }

    /// Whether a node claims what is true, with the first choice that there is.
    fn well_chosen(&self, node: &Node) -> bool {
        let (net, s) = (&self.input.net, &node.sequent);
        let formula = self.input.formulas[usize::from(s.formula)];
        let left_after = |t: usize| self.holds(formula.left, net.fired(s.marking, t));
        let chosen = match (formula.operator, s.side == HOLDS) {
            (STEP, true) => {
                let enabled = net.with_action(net.next(s.marking), formula.action);
                members(enabled).find(|&t| left_after(t)) == Some(node.transition.into())
            }
            (AND, false) => (node.rule == 22) != self.holds(formula.left, s.marking),
            _ => true,
        };
        chosen && self.holds(s.formula, s.marking) == (s.side == HOLDS)
    }

    /// The next free number after all below a node, if the numbers there begin with
    /// `free` and are in order.
    fn numbered(&self, node: usize, free: usize) -> Option<usize> {
        let Node {
            first, children, ..
        } = self.nodes[node];
        let (first, end) = (first as usize, free + usize::from(children));
        let mut below = free..end;
        (children == 0 || first == free).then_some(())?;
        below.try_fold(end, |free, child| self.numbered(child, free))
    }
}

/// Sees that the tree is the right one, and that it is accepted for its side alone.
fn is_right(case: &WrittenCase, written: Written, bytes: &[u8]) {
    let tree = Tree::new(case, bytes);
    assert!(tree.nodes.iter().all(|node| tree.well_chosen(node)));
    assert_eq!(tree.numbered(0, 1), Some(tree.nodes.len()));
    for side in [0, 1] {
        let mut ask = case.ask.clone();
        ask[11] = side;
        let verdict = check(&ask, &case.net, &case.formulas, bytes);
        let nodes = written.nodes;
        let accepted = verdict == Verdict::Accepted { nodes };
        assert_eq!(accepted, side == written.side);
    }
}

#[test]
fn trees() {
    let mut rng = Prng::new(1);
    let (mut answers, mut sides) = (Counts::new(), Counts::new());
    let (mut rules, mut lengths) = (Counts::new(), Counts::new());
    let mut beside_until = 0;
    for _ in 0..30_000 {
        let case = written_case(&mut rng);
        let fill = rng.number() as u8;
        let mut room = vec![fill; case.room];
        let answer = write(&case.ask, &case.net, &case.formulas, &mut room);
        add(&mut answers, answer.map_or_else(|r| r.number, |_| 0));
        let length = answer.map_or(0, |written| written.nodes as usize * NODE);
        assert!(room[length..].iter().all(|&b| b == fill));
        let Ok(written) = answer else { continue };
        is_right(&case, written, &room[..length]);
        add(&mut sides, written.side.into());
        add(&mut lengths, written.nodes.ilog2());
        for record in room[..length].chunks_exact(NODE) {
            add(&mut rules, record[35].into());
        }
        beside_until += usize::from(has_until(&case.formulas));
    }
    assert_eq!(occurred(&answers), [0, 1, 2, 3, 4, 5, 7, 12, 14]);
    assert_eq!(occurred(&sides), [0, 1]);
    assert_eq!(occurred(&rules), [1, 2, 15, 16, 21, 22, 23, 24]);
    assert!(occurred(&lengths).contains(&NODES.ilog2()));
    assert!(beside_until > 100, "only {beside_until} beside an until");
}

#[test]
fn sizes() {
    let size = |case: WrittenCase| {
        let written = measure(&case.ask, &case.net, &case.formulas).expect("a claim");
        (written.side, written.nodes)
    };
    assert_eq!(size(r_fails()), (1, 4));
    assert_eq!(size(ands(15, 0)), (0, 65_535));
    assert_eq!(size(ands(15, 1)), (1, 65_536));
    assert_eq!(size(ands(0, 255)), (1, 256));
    assert_eq!(size(ands(255, 0)), (0, u64::MAX));
    assert_eq!(size(wide(31, 3)), (1, 1 + 31 + 31 * 31 + 2 * 31 * 31 * 31));
    assert_eq!(size(switches(3)), (1, 1 + 8 + 64 + 2 * 512));
    assert_eq!(size(ring(false)), (0, 256));
    assert_eq!(size(ring(true)), (1, u64::MAX));
}

#[test]
fn the_same_cases_for_a_seed() {
    let cases = |seed: u64| -> Vec<WrittenCase> {
        let mut rng = Prng::new(seed);
        (0..200).map(|_| written_case(&mut rng)).collect()
    };
    assert_eq!(cases(3), cases(3));
    assert_ne!(cases(3), cases(4));
}
