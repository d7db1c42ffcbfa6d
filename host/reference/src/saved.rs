//! The tables of an accepted tree without the formula records that the asked one does not
//! reach (F-10).

use std::collections::BTreeSet;

use crate::check::{ASK, Input, NODE, check};
use crate::formula::{FORMULA, Formula};
use crate::{Refusal, refused};

/// Where the number of a formula stands in an ask and in a node.
const OF_ASK: usize = 8;
const OF_NODE: usize = 32;
/// Where the operands stand in a formula record, left and right.
const OPERANDS: [usize; 2] = [2, 4];

/// The numbers of the records that the asked one reaches through its operands, itself
/// included, rising.
pub fn reached(formulas: &[Formula], asked: u16) -> Vec<u16> {
    let mut reached = BTreeSet::new();
    let mut open = vec![asked];
    while let Some(number) = open.pop() {
        if reached.insert(number) {
            let operands = formulas[usize::from(number)].operands();
            open.extend(operands.into_iter().flatten());
        }
    }
    reached.into_iter().collect()
}

/// The inputs with a tree that the check accepts, or the check's own answer.
fn accepted<'a>(
    ask: &[u8],
    net: &[u8],
    formulas: &[u8],
    tree: &'a [u8],
) -> Result<Input<'a>, Refusal> {
    match check(ask, net, formulas, tree).numbers() {
        (0, _) => Input::decode(ask, net, formulas, tree),
        (number, record) => Err(Refusal { number, record }),
    }
}

/// Puts the new number of a formula in place of the old one: how many of those reached
/// are lower.
fn renumber(record: &mut [u8], at: usize, reached: &[u16]) {
    let field = &mut record[at..at + 2];
    let old = u16::from_le_bytes([field[0], field[1]]);
    let new = reached.partition_point(|&lower| lower < old) as u16;
    field.copy_from_slice(&new.to_le_bytes());
}

/// Writes a formula record, with the operands that it has numbered anew.
fn put_formula(record: &mut [u8], old: &[u8], formula: &Formula, reached: &[u16]) {
    record.copy_from_slice(old);
    let operands = formula.operands();
    for (at, _) in OPERANDS.iter().zip(operands).filter(|(_, o)| o.is_some()) {
        renumber(record, *at, reached);
    }
}

/// Writes the new ask, formula records and nodes to the start of the three rooms. Gives
/// how many formula records are left, or the check's own answer or refusal 12, with which
/// nothing is written.
pub fn save(
    ask: &[u8],
    net: &[u8],
    formulas: &[u8],
    tree: &[u8],
    rooms: [&mut [u8]; 3],
) -> Result<u64, Refusal> {
    let input = accepted(ask, net, formulas, tree)?;
    let reached = reached(&input.formulas, input.ask.formula);
    let [for_ask, for_formulas, for_tree] = rooms;
    let (Some(new_ask), Some(new_formulas), Some(new_tree)) = (
        for_ask.get_mut(..ASK),
        for_formulas.get_mut(..reached.len() * FORMULA),
        for_tree.get_mut(..tree.len()),
    ) else {
        return refused(12);
    };
    new_ask.copy_from_slice(ask);
    renumber(new_ask, OF_ASK, &reached);
    for (record, &number) in new_formulas.chunks_exact_mut(FORMULA).zip(&reached) {
        let number = usize::from(number);
        let old = &formulas[number * FORMULA..][..FORMULA];
        put_formula(record, old, &input.formulas[number], &reached);
    }
    new_tree.copy_from_slice(tree);
    for record in new_tree.chunks_exact_mut(NODE) {
        renumber(record, OF_NODE, &reached);
    }
    Ok(reached.len() as u64)
}
