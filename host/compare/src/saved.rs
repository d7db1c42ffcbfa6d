//! The tables that room is saved in, on both sides.

use generate::cases::TreeCase;
use generate::saved::{SaveCase, lengths};
use reference::check::{ASK, Input, NODE};
use reference::formula::{ALL, FORMULA};
use reference::rules::used_for;
use reference::saved::{reached, save};

use crate::rooms::{Answer, answer_in};

/// The lengths of what a call has written that gives this number and count.
fn written(case: &SaveCase, number: u32, count: u64) -> [u64; 3] {
    match number {
        0 => [
            ASK as u64,
            count.saturating_mul(FORMULA as u64),
            case.tables.tree.len() as u64,
        ],
        _ => [0; 3],
    }
}

pub fn archive_tables(case: &SaveCase) -> Answer {
    let t = &case.tables;
    answer_in(case.rooms, |rooms| {
        let (number, place, count) =
            archive::save_room(&t.ask, &t.net, &t.formulas, &t.tree, rooms);
        let numbers = vec![number.into(), place, count];
        (numbers, written(case, number, count))
    })
}

pub fn reference_tables(case: &SaveCase) -> Answer {
    let t = &case.tables;
    answer_in(case.rooms, |rooms| {
        match save(&t.ask, &t.net, &t.formulas, &t.tree, rooms) {
            Ok(count) => (vec![0, 0, count], written(case, 0, count)),
            Err(refusal) => (vec![refusal.number.into(), refusal.record, 0], [0; 3]),
        }
    })
}

/// Whether the archive accepts its new tables with as many nodes, and writes them unchanged
/// when it saves room once more.
pub fn stands(case: &SaveCase, found: &Answer) -> bool {
    let [ask, formulas, tree] = [0, 1, 2].map(|room| found.written_in(room).to_vec());
    let nodes = (case.tables.tree.len() / NODE) as u64;
    let rooms = [ask.len(), formulas.len(), tree.len()];
    let net = case.tables.net.clone();
    let tables = TreeCase {
        ask,
        net,
        formulas,
        tree,
    };
    let check = archive::check(&tables.ask, &tables.net, &tables.formulas, &tables.tree);
    let again = archive_tables(&SaveCase { tables, rooms });
    check == (0, nodes)
        && again.numbers == found.numbers
        && (0..3).all(|room| again.written_in(room) == found.written_in(room))
}

/// What a case can show beside its answer.
pub const SHOWN: [&str; 11] = [
    "12 for the ask alone",
    "12 for the formulas alone",
    "12 for the tree alone",
    "granted with a dead record before",
    "granted with one between",
    "granted with one behind",
    "granted with nothing dead",
    "granted with 256 records",
    "granted with one of 256 reached",
    "granted with all of 256 reached",
    "granted with operator 5 in the tree",
];

/// Which of these a case shows, with the number of its answer.
pub fn shown(case: &SaveCase, number: u32) -> [bool; SHOWN.len()] {
    let t = &case.tables;
    let Ok(input) = Input::decode(&t.ask, &t.net, &t.formulas, &t.tree) else {
        return [false; SHOWN.len()];
    };
    let (lengths, asked) = (lengths(t), input.ask.formula);
    let short = [0, 1, 2].map(|i| case.rooms[i] < lengths[i]);
    let alone = |only: [bool; 3]| number == 12 && short == only;
    let (left, count) = (reached(&input.formulas, asked), input.formulas.len());
    let first = left.first().copied().unwrap_or(asked);
    let granted = number == 0;
    [
        alone([true, false, false]),
        alone([false, true, false]),
        alone([false, false, true]),
        granted && first > 0,
        granted && left.len() < usize::from(asked - first) + 1,
        granted && usize::from(asked) + 1 < count,
        granted && left.len() == count,
        granted && count == 256,
        granted && count == 256 && left.len() == 1,
        granted && left.len() == 256,
        granted && has_all(&t.tree),
    ]
}

/// Whether a tree has a rule of operator 5.
fn has_all(tree: &[u8]) -> bool {
    let mut rules = tree.chunks_exact(NODE).map(|node| used_for(node[35]));
    rules.any(|used| used.is_some_and(|(_, operator, _)| operator == ALL))
}
