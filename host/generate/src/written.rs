//! Claims whose tree is to be written.

use reference::check::{Ask, Input, NODE, NODES};
use reference::formula::{ALL, AND, Formula, NOT, SOME, STEP, TRUE};
use reference::meaning::Graph;
use reference::net::below;
use reference::written::{measure, write};

use crate::cases::TreeCase;
use crate::encode::{self, Transition};
use crate::families::{NET_R, formula};
use crate::mutate::mutate;
use crate::prng::Prng;
use crate::rooms::room;
use crate::settings::{Setting, action_of, setting};

/// The three tables of a claim, and the length of the room.
#[derive(Clone, Debug, PartialEq, Eq)]
pub struct WrittenCase {
    pub ask: Vec<u8>,
    pub net: Vec<u8>,
    pub formulas: Vec<u8>,
    pub room: usize,
}

impl WrittenCase {
    /// The tables of the true side, with the tree that is written.
    pub fn tree(self) -> TreeCase {
        let WrittenCase {
            mut ask,
            net,
            formulas,
            room,
        } = self;
        let mut tree = vec![0; room];
        let written = write(&ask, &net, &formulas, &mut tree).expect("a claim and room");
        ask[11] = written.side;
        tree.truncate(written.nodes as usize * NODE);
        TreeCase {
            ask,
            net,
            formulas,
            tree,
        }
    }
}

/// The longest room, for one node more than can be written, and what it mostly is.
const LARGEST: usize = (NODES + 1) * NODE;
const LARGE: usize = 2000 * NODE;

/// The most markings of a net with a long formula table, and the most records of a
/// short one: where both are passed, finding the truth may take too long.
const MARKINGS: usize = 30;
const SHORT: usize = 5;

/// Small claims for the most part, some with "until", some with damaged tables.
pub fn written_case(rng: &mut Prng) -> WrittenCase {
    let mut case = match rng.below(2000) {
        0 | 1 => ands(15, rng.below(4) as u16),
        2..=7 => ands(rng.between(16, 250) as u16, rng.below(5) as u16),
        8..=12 => wide(rng.between(1, 64), rng.between(1, 3)),
        13..=24 => crowd(rng),
        _ => small(rng),
    };
    let answer = measure(&case.ask, &case.net, &case.formulas);
    let nodes = answer.map_or(3, |written| written.nodes);
    let length = nodes.saturating_mul(NODE as u64).min(case.room as u64);
    case.room = room(rng, length as usize, NODE);
    case
}

fn small(rng: &mut Prng) -> WrittenCase {
    loop {
        let mut case = claim(rng);
        if rng.percent(15) {
            damage(rng, &mut case);
        }
        if !costly(&case) {
            return case;
        }
    }
}

fn costly(case: &WrittenCase) -> bool {
    let input = Input::without_tree(&case.ask, &case.net, &case.formulas);
    input.is_ok_and(|input| {
        let graph = || Graph::reachable(&input.net, input.ask.marking, MARKINGS);
        input.formulas.len() > SHORT && graph().is_none()
    })
}

/// Changes of the tables. A tree is not among them.
fn damage(rng: &mut Prng, case: &mut WrittenCase) {
    let mut tables = TreeCase {
        ask: std::mem::take(&mut case.ask),
        net: std::mem::take(&mut case.net),
        formulas: std::mem::take(&mut case.formulas),
        tree: Vec::new(),
    };
    for _ in 0..3 {
        mutate(rng, &mut tables);
    }
    (case.ask, case.net, case.formulas) = (tables.ask, tables.net, tables.formulas);
}

/// A random claim about a random net.
fn claim(rng: &mut Prng) -> WrittenCase {
    let mut setting = setting(rng);
    if rng.percent(20) {
        setting.marking = rng.number() & below(setting.places);
    }
    let table = table(rng, &setting);
    let asked = match rng.percent(80) {
        true => table.len() - 1,
        false => rng.below(table.len()),
    };
    let room = match rng.percent(1) {
        true => LARGEST,
        false => LARGE,
    };
    let side = rng.below(2) as u8;
    case(&setting, &table, asked as u16, side, room)
}

fn case(setting: &Setting, table: &[Formula], formula: u16, side: u8, room: usize) -> WrittenCase {
    WrittenCase {
        ask: encode::ask(&Ask {
            marking: setting.marking,
            formula,
            places: setting.places as u8,
            side,
        }),
        net: setting.net(),
        formulas: encode::formulas(table),
        room,
    }
}

/// A random formula table, seldom with "until". Long ones name the record before for
/// the most part.
fn table(rng: &mut Prng, setting: &Setting) -> Vec<Formula> {
    let (count, near) = match rng.below(40) {
        0 => (rng.pick(&[30, 100, 255, 256]), 90),
        1..=12 => (rng.between(1, SHORT), 60),
        _ => (rng.between(6, 14), 80),
    };
    let until = if rng.percent(15) { 15 } else { 0 };
    let mut table = vec![formula(TRUE, 0, 0, 0)];
    while table.len() < count {
        let (left, right) = (operand(rng, &table, near), operand(rng, &table, near / 2));
        table.push(match rng.below(100) {
            _ if rng.percent(until) => formula(rng.pick(&[SOME, ALL]), left, right, 0),
            0..=3 => formula(TRUE, 0, 0, 0),
            4..=24 => formula(NOT, left, 0, 0),
            25..=54 => formula(AND, left, right, 0),
            55..=59 => formula(AND, right, left, 0),
            _ => formula(STEP, left, 0, action_of(rng, setting)),
        });
    }
    table
}

/// An operand of the next record: in about `near` of 100 calls the record before.
fn operand(rng: &mut Prng, table: &[Formula], near: usize) -> u16 {
    match rng.percent(near) {
        true => table.len() as u16 - 1,
        false => rng.below(table.len()) as u16,
    }
}

/// Up to four times operator 3 over up to 256 markings, and below that what depends on
/// the marking: tokens go to a place and back, each on its own, and some are looked at.
fn crowd(rng: &mut Prng) -> WrittenCase {
    let tokens = rng.between(5, 8);
    let looked_at = |token: usize| 10 + token as u16;
    let mut transitions: Vec<Transition> = (0..tokens).flat_map(switch).collect();
    transitions.extend((0..tokens).map(|p| step(p, p, looked_at(p))));
    rng.shuffle(&mut transitions);
    let mut table = vec![formula(TRUE, 0, 0, 0)];
    for _ in 0..3 {
        table.push(formula(STEP, 0, 0, looked_at(rng.below(tokens))));
    }
    for _ in 0..3 {
        let (left, right) = (operand(rng, &table, 40), operand(rng, &table, 40));
        table.push(match rng.percent(50) {
            true => formula(AND, left, right, 0),
            false => formula(NOT, left, 0, 0),
        });
    }
    for _ in 0..rng.between(2, 4) {
        table.push(formula(STEP, table.len() as u16 - 1, 0, 1));
        if rng.percent(50) {
            table.push(formula(NOT, table.len() as u16 - 1, 0, 0));
        }
    }
    let marking = rng.number() & below(tokens as u32);
    let marking = marking | (!marking & below(tokens as u32)) << 8;
    last(&pressed(16, transitions, marking), &table)
}

/// A token goes from a place to the eighth after it, and back.
fn switch(place: usize) -> [Transition; 2] {
    [step(place, place + 8, 1), step(place + 8, place, 1)]
}

/// A net without optional transitions.
fn pressed(places: u32, transitions: Vec<Transition>, marking: u64) -> Setting {
    Setting {
        places,
        transitions,
        optional: 0,
        marking,
        goal: None,
    }
}

fn step(from: usize, to: usize, action: u16) -> Transition {
    Transition {
        pre: 1 << from,
        post: 1 << to,
        action,
    }
}

/// The last record of a table, with the longest room.
fn last(setting: &Setting, table: &[Formula]) -> WrittenCase {
    case(setting, table, table.len() as u16 - 1, 0, LARGEST)
}

/// Net R: it is not so that after action 2 action 3 is enabled. Fails, by 4 nodes.
pub fn r_fails() -> WrittenCase {
    let table = [
        formula(TRUE, 0, 0, 0),
        formula(STEP, 0, 0, 3),
        formula(STEP, 1, 0, 2),
        formula(NOT, 2, 0, 0),
    ];
    last(&pressed(3, NET_R.to_vec(), 3), &table)
}

/// So many times "and" of the record before with itself, then so many times "not":
/// 2 to the power of `ands` + 1, less 1, and `nots` nodes.
pub fn ands(ands: u16, nots: u16) -> WrittenCase {
    let mut table = vec![formula(TRUE, 0, 0, 0)];
    table.extend((0..ands).map(|k| formula(AND, k, k, 0)));
    table.extend((ands..ands + nots).map(|k| formula(NOT, k, 0, 0)));
    last(&pressed(3, NET_R.to_vec(), 3), &table)
}

/// Operator 3 so many times over what is false.
fn steps(setting: &Setting, count: usize) -> WrittenCase {
    let mut table = vec![formula(TRUE, 0, 0, 0), formula(NOT, 0, 0, 0)];
    table.extend((0..count).map(|k| formula(STEP, k as u16 + 1, 0, 1)));
    last(setting, &table)
}

/// Operator 3 fails in so many levels at one marking: each node has `width` children.
pub fn wide(width: usize, levels: usize) -> WrittenCase {
    steps(&pressed(1, vec![step(0, 0, 1); width], 1), levels)
}

/// Operator 3 fails in so many levels over 256 markings: 8 tokens go to a place and
/// back, each on its own, so that each node has 8 children.
pub fn switches(levels: usize) -> WrittenCase {
    let transitions = (0..8).flat_map(switch).collect();
    steps(&pressed(16, transitions, 0xFF), levels)
}

/// Operator 3, 254 times, over the 32 markings of a ring where the token goes one or
/// two places on; the last step is possible in one place alone. It holds, by 256 nodes,
/// or where that step is `missing` it fails, by too many.
pub fn ring(missing: bool) -> WrittenCase {
    let mut transitions: Vec<Transition> = (0..32).map(|p| step(p, (p + 1) % 32, 1)).collect();
    transitions.extend((0..31).map(|p| step(p, (p + 2) % 32, 1)));
    transitions.push(step(31, 31, if missing { 3 } else { 2 }));
    let mut table = vec![formula(TRUE, 0, 0, 0), formula(STEP, 0, 0, 2)];
    table.extend((1..255).map(|k| formula(STEP, k, 0, 1)));
    last(&pressed(32, transitions, 1), &table)
}
