//! The stream of cases.

use std::collections::VecDeque;

use reference::check::{Ask, NODE, NODES, Node};
use reference::formula::{ALL, SOME};
use reference::net::Net;
use reference::rules::{HOLDS, Sequent};

use crate::categories::{LabelCase, label_case};
use crate::encode;
use crate::families;
use crate::firings::{FiringCase, firing_case};
use crate::layout::{Order, lay_out};
use crate::mutate::mutate;
use crate::prng::Prng;
use crate::search::{Built, Model, Outcome, deviate, prove, swerve};
use crate::settings::{formulas, optional, setting};

/// The four tables of a tree check.
#[derive(Clone, Debug, PartialEq, Eq)]
pub struct TreeCase {
    pub ask: Vec<u8>,
    pub net: Vec<u8>,
    pub formulas: Vec<u8>,
    pub tree: Vec<u8>,
}

#[derive(Clone, Copy, Debug, PartialEq, Eq)]
pub enum Kind {
    Valid,
    Swerved,
    Deviated,
    Mutated,
    Random,
    Sizes,
    /// Trees that the archive has written; the generator makes none.
    Written,
}

pub const KINDS: [(Kind, &str); 7] = [
    (Kind::Valid, "trees by the rules"),
    (Kind::Swerved, "trees that leave the rules at one node"),
    (Kind::Deviated, "trees that leave the rules at some nodes"),
    (Kind::Mutated, "changed trees"),
    (Kind::Random, "random bytes"),
    (Kind::Sizes, "table sizes at the limits"),
    (Kind::Written, "trees that were written"),
];

pub enum Case {
    Tree(Kind, TreeCase),
    Label(LabelCase),
    Firing(FiringCase),
}

/// The most markings of a graph in which trees are searched.
const MARKINGS: usize = 150;

pub struct Generator {
    rng: Prng,
    waiting: VecDeque<(Kind, TreeCase)>,
    /// Searches that passed their budget.
    pub too_large: u64,
    /// Graphs that were too large to search.
    pub too_many_markings: u64,
    /// True claims for which no rule fitted. Must stay 0.
    pub stuck: u64,
}

impl Generator {
    pub fn new(seed: u64) -> Generator {
        Generator {
            rng: Prng::new(seed),
            waiting: VecDeque::new(),
            too_large: 0,
            too_many_markings: 0,
            stuck: 0,
        }
    }

    pub fn case(&mut self) -> Case {
        match self.rng.below(1000) {
            0..=119 => Case::Label(label_case(&mut self.rng)),
            120..=279 => Case::Firing(firing_case(&mut self.rng)),
            280..=319 => Case::Tree(Kind::Random, random_bytes(&mut self.rng)),
            320 if self.rng.percent(40) => Case::Tree(Kind::Sizes, limit_sizes(&mut self.rng)),
            321 => Case::Tree(Kind::Sizes, full_round(&mut self.rng)),
            _ => {
                let (kind, case) = self.tree();
                Case::Tree(kind, case)
            }
        }
    }

    fn tree(&mut self) -> (Kind, TreeCase) {
        loop {
            if let Some(case) = self.waiting.pop_front() {
                return case;
            }
            self.search();
        }
    }

    /// Trees for some claims on one random net.
    fn search(&mut self) {
        let Some((model, net)) = model(&mut self.rng) else {
            self.too_many_markings += 1;
            return;
        };
        for _ in 0..3 {
            self.claim(&model, &net);
        }
    }

    fn claim(&mut self, model: &Model, net: &[u8]) {
        let claim = true_claim(&mut self.rng, model);
        match proof(&mut self.rng, model, claim) {
            Outcome::Found(built) => self.add(model, net, claim, &built, Kind::Valid, 4),
            Outcome::TooLarge => self.too_large += 1,
            Outcome::Stuck => self.stuck += 1,
        }
        for _ in 0..3 {
            let budget = self.rng.pick(&[400, 400, 2000]);
            if let Some(built) = swerve(model, &mut self.rng, claim, budget) {
                self.add(model, net, claim, &built, Kind::Swerved, 0);
            }
        }
        for _ in 0..2 {
            let wrong = self.rng.percent(60);
            let claim = Sequent {
                side: claim.side ^ u8::from(wrong),
                ..claim
            };
            let budget = self.rng.pick(&[20, 60, 200]);
            let built = deviate(model, &mut self.rng, claim, budget);
            self.add(model, net, claim, &built, Kind::Deviated, 1);
        }
    }

    /// Adds a tree and some changes of it.
    fn add(
        &mut self,
        model: &Model,
        net: &[u8],
        claim: Sequent,
        built: &[Built],
        kind: Kind,
        changes: usize,
    ) {
        if built.len() > NODES {
            self.too_large += 1;
            return;
        }
        let rng = &mut self.rng;
        let case = tables(rng, model, net, claim, built);
        for _ in 0..changes {
            let mut changed = case.clone();
            mutate(rng, &mut changed);
            self.waiting.push_back((Kind::Mutated, changed));
        }
        self.waiting.push_back((kind, case));
    }
}

/// A random net at a marking with a formula table, and the net's bytes; nothing where too
/// many markings are reachable.
pub(crate) fn model(rng: &mut Prng) -> Option<(Model, Vec<u8>)> {
    let setting = setting(rng);
    let formulas = formulas(rng, &setting);
    let bytes = setting.net();
    let net = Net::decode(setting.places, &bytes).expect("a good net");
    let model = Model::new(net, formulas, setting.marking, MARKINGS)?;
    Some((model, bytes))
}

/// A true claim at the marking of a model.
pub(crate) fn true_claim(rng: &mut Prng, model: &Model) -> Sequent {
    let formula = asked(rng, model);
    Sequent {
        marking: model.graph.markings[0],
        formula,
        side: u8::from(!model.holds(formula, 0)),
        ..Sequent::default()
    }
}

/// A derivation of a true claim, mostly a small one.
pub(crate) fn proof(rng: &mut Prng, model: &Model, claim: Sequent) -> Outcome {
    let budget = match rng.below(100) {
        0 => NODES,
        1..=5 => 6000,
        _ => 500,
    };
    prove(model, rng, claim, budget)
}

/// The tables of a claim with its tree, the nodes in some order.
pub(crate) fn tables(
    rng: &mut Prng,
    model: &Model,
    net: &[u8],
    claim: Sequent,
    built: &[Built],
) -> TreeCase {
    let order = rng.pick(&[Order::Levels, Order::Depth, Order::Any]);
    let nodes = lay_out(built, order, rng);
    TreeCase {
        ask: encode::ask(&Ask {
            marking: claim.marking,
            formula: claim.formula,
            places: model.net.places as u8,
            side: claim.side,
        }),
        net: net.to_vec(),
        formulas: encode::formulas(&model.formulas),
        tree: encode::tree(&nodes),
    }
}

/// The number of the formula to ask about; mostly one with "until", and often
/// one that holds though its right operand does not.
fn asked(rng: &mut Prng, model: &Model) -> u16 {
    if rng.percent(40) {
        let waits = |f: &usize| {
            let formula = &model.formulas[*f];
            matches!(formula.operator, ALL | SOME)
                && model.holds(*f as u16, 0)
                && !model.holds(formula.right, 0)
        };
        let waiting: Vec<usize> = (0..model.formulas.len()).filter(waits).collect();
        if !waiting.is_empty() {
            return rng.pick(&waiting) as u16;
        }
    }
    let until = |f: &usize| matches!(model.formulas[*f].operator, ALL | SOME);
    let untils: Vec<usize> = (0..model.formulas.len()).filter(until).collect();
    match untils.is_empty() || rng.percent(25) {
        true => rng.below(model.formulas.len()) as u16,
        false => rng.pick(&untils) as u16,
    }
}

/// Tables of random bytes, from fully random to random but in range.
fn random_bytes(rng: &mut Prng) -> TreeCase {
    let mut bytes = |sizes: &[usize], limit: usize| -> Vec<u8> {
        let length = rng.pick(sizes);
        let byte = |rng: &mut Prng| match limit {
            256 => rng.number() as u8,
            _ if rng.percent(60) => 0,
            _ => rng.below(limit) as u8,
        };
        (0..length).map(|_| byte(rng)).collect()
    };
    let mut case = TreeCase {
        ask: bytes(&[0, 1, 11, 12, 12, 12, 12, 13, 24], 4),
        net: bytes(&[0, 1, 23, 24, 24, 24, 25, 48, 72], 4),
        formulas: bytes(&[0, 7, 8, 8, 8, 8, 9, 16], 3),
        tree: bytes(&[0, 1, 39, 40, 40, 40, 41, 80, 120], 4),
    };
    match rng.below(4) {
        0 => {
            for table in [
                &mut case.ask,
                &mut case.net,
                &mut case.formulas,
                &mut case.tree,
            ] {
                table.iter_mut().for_each(|byte| *byte = rng.number() as u8);
            }
        }
        1 => {
            case.ask = encode::ask(&Ask {
                marking: rng.below(4) as u64,
                formula: 0,
                places: rng.between(2, 64) as u8,
                side: rng.below(2) as u8,
            });
            case.formulas = vec![0; 8];
        }
        _ => {}
    }
    case
}

/// The tree with a round of up to 64, mostly changed.
fn full_round(rng: &mut Prng) -> TreeCase {
    let count = rng.pick(&[1, 2, 63, 64, 64, 64]);
    let mut case = families::marked_round(count, optional(rng, count));
    if rng.percent(60) {
        mutate(rng, &mut case);
    }
    case
}

/// Tables with as many records as are allowed, or one more.
fn limit_sizes(rng: &mut Prng) -> TreeCase {
    let leaf = Node {
        rule: 15,
        ..Node::default()
    };
    let nodes = match rng.below(5) {
        0 => NODES,
        1 => NODES + 1,
        2 => 2 * NODES,
        _ => 1,
    };
    let mut tree = encode::tree(&vec![leaf; nodes]);
    if rng.percent(30) {
        tree.truncate(nodes * NODE - rng.below(NODE));
    }
    TreeCase {
        ask: encode::ask(&Ask {
            marking: 0,
            formula: 0,
            places: 64,
            side: HOLDS,
        }),
        net: vec![0; 24 * rng.pick(&[1, 63, 64, 65])],
        formulas: vec![0; 8 * rng.pick(&[1, 255, 256, 257])],
        tree,
    }
}
