//! The trees that are written, on both sides.

use generate::cases::TreeCase;
use generate::written::WrittenCase;
use reference::check::NODE;
use reference::written;

use crate::rooms::{Answer, answer};

pub fn archive_tree(case: &WrittenCase) -> Answer {
    answer(case.room, |room| {
        let (number, record, side, nodes) =
            archive::write_tree(&case.ask, &case.net, &case.formulas, room);
        let numbers = vec![number.into(), record, side.into(), nodes];
        (numbers, nodes.saturating_mul(NODE as u64))
    })
}

pub fn reference_tree(case: &WrittenCase) -> Answer {
    answer(case.room, |room| {
        match written::write(&case.ask, &case.net, &case.formulas, room) {
            Ok(tree) => {
                let numbers = vec![0, 0, tree.side.into(), tree.nodes];
                (numbers, tree.nodes * NODE as u64)
            }
            Err(refusal) => (vec![refusal.number.into(), refusal.record, 0, 0], 0),
        }
    })
}

/// The tree of a granted answer with an ask for the side that was said, and the same
/// with one for the other side.
pub fn claims(case: &WrittenCase, answer: &Answer) -> [TreeCase; 2] {
    let said = answer.numbers[2] as u8;
    [said, said ^ 1].map(|side| {
        let mut ask = case.ask.clone();
        ask[11] = side;
        TreeCase {
            ask,
            net: case.net.clone(),
            formulas: case.formulas.clone(),
            tree: answer.written().to_vec(),
        }
    })
}
