//! Tables of trees, most of them accepted, with formula records that the asked one does
//! not reach.

use reference::check::{ASK, Input, NODE, NODES};
use reference::formula::{ALL, AND, FORMULA, Formula, NOT, SOME, STEP, TRUE, decode};
use reference::saved::{reached, save};

use crate::cases::{TreeCase, model, proof, tables, true_claim};
use crate::encode;
use crate::families::formula;
use crate::mutate::mutate;
use crate::prng::Prng;
use crate::rooms::{enough, room};
use crate::search::Outcome;
use crate::written::ands;

/// The four tables, and the lengths of the rooms for the new ask, formula table and tree.
#[derive(Clone, Debug, PartialEq, Eq)]
pub struct SaveCase {
    pub tables: TreeCase,
    pub rooms: [usize; 3],
}

/// The most records of a formula table.
const FORMULAS: usize = 256;

/// Trees by the rules with none, some or many formula records that the asked one does not
/// reach, some of them changed.
pub fn save_case(rng: &mut Prng) -> SaveCase {
    let mut tables = match rng.below(100) {
        0 | 1 => full(rng),
        2..=49 => found(rng),
        _ => saved(found(rng)),
    };
    let count = tables.formulas.len() / FORMULA;
    let size = match rng.below(20) {
        0..=5 => count,
        6 | 7 => FORMULAS,
        8 => FORMULAS - 1,
        _ => count + rng.between(1, 8),
    };
    spread(rng, &mut tables, size.clamp(count, FORMULAS));
    if rng.percent(35) {
        mutate(rng, &mut tables);
    }
    SaveCase {
        rooms: rooms(rng, &tables),
        tables,
    }
}

/// A true claim about a random net, with a tree by the rules.
fn found(rng: &mut Prng) -> TreeCase {
    loop {
        let Some((model, net)) = model(rng) else {
            continue;
        };
        let claim = true_claim(rng, &model);
        match proof(rng, &model, claim) {
            Outcome::Found(built) if built.len() <= NODES => {
                return tables(rng, &model, &net, claim, &built);
            }
            _ => {}
        }
    }
}

/// A claim whose formula reaches each record of a full table.
fn full(rng: &mut Prng) -> TreeCase {
    let levels = rng.below(6) as u16;
    ands(levels, FORMULAS as u16 - 1 - levels).tree()
}

/// The tables without the records that the asked one does not reach.
fn saved(mut tables: TreeCase) -> TreeCase {
    let old = tables.clone();
    let rooms = [&mut tables.ask, &mut tables.formulas, &mut tables.tree].map(|t| &mut t[..]);
    let left = save(&old.ask, &old.net, &old.formulas, &old.tree, rooms);
    let left = left.expect("an accepted tree") as usize;
    tables.formulas.truncate(left * FORMULA);
    tables
}

/// Spreads the formula records of good tables over a table of so many, in their order.
/// The other records there are named by none of them.
pub fn spread(rng: &mut Prng, tables: &mut TreeCase, size: usize) {
    let old = decode(&tables.formulas).expect("a good formula table");
    let mut numbers: Vec<u16> = (0..size as u16).collect();
    rng.shuffle(&mut numbers);
    numbers.truncate(old.len());
    numbers.sort();
    let moved = |number: u16| numbers[usize::from(number)];
    let mut table: Vec<Formula> = (0..size).map(|number| any(rng, number)).collect();
    for (&number, formula) in numbers.iter().zip(&old) {
        let operands = formula.operands();
        let [left, right] = operands.map(|operand| operand.map_or(0, moved));
        table[usize::from(number)] = Formula {
            left,
            right,
            ..*formula
        };
    }
    tables.formulas = encode::formulas(&table);
    let nodes = tables.tree.chunks_exact_mut(NODE);
    let fields = nodes.map(|node| &mut node[32..34]);
    for field in fields.chain([&mut tables.ask[8..10]]) {
        let number = moved(u16::from_le_bytes([field[0], field[1]]));
        field.copy_from_slice(&number.to_le_bytes());
    }
}

/// Any record that can have this number. Its action is often the number of a record.
fn any(rng: &mut Prng, number: usize) -> Formula {
    if number == 0 {
        return formula(TRUE, 0, 0, 0);
    }
    let operator = rng.pick(&[TRUE, NOT, AND, STEP, SOME, ALL]);
    let (left, right) = (rng.below(number) as u16, rng.below(number) as u16);
    match operator {
        TRUE => formula(TRUE, 0, 0, 0),
        NOT => formula(NOT, left, 0, 0),
        STEP => formula(STEP, left, 0, right),
        _ => formula(operator, left, right, 0),
    }
}

/// The lengths of what is to be written. Where the input is refused, those of the tables.
pub fn lengths(tables: &TreeCase) -> [usize; 3] {
    let input = Input::decode(&tables.ask, &tables.net, &tables.formulas, &tables.tree);
    let formulas = input.map_or(tables.formulas.len(), |input| {
        reached(&input.formulas, input.ask.formula).len() * FORMULA
    });
    [ASK, formulas, tables.tree.len()]
}

/// Rooms that are enough, with one of them too short, or of any lengths.
fn rooms(rng: &mut Prng, tables: &TreeCase) -> [usize; 3] {
    let (lengths, records) = (lengths(tables), [ASK, FORMULA, NODE]);
    let kind = rng.below(10);
    let lent = |i: usize| match kind {
        9 => room(rng, lengths[i], records[i]),
        _ => enough(rng, lengths[i], records[i]),
    };
    let mut rooms = std::array::from_fn(lent);
    if (6..9).contains(&kind) {
        let i = rng.below(3);
        rooms[i] = match rng.percent(60) {
            true => lengths[i].saturating_sub(1),
            false => rng.below(lengths[i].max(1)),
        };
    }
    rooms
}
