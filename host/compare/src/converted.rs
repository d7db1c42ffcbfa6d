//! The category files that are converted, on both sides.

use generate::categories::ConvertCase;
use reference::category;
use reference::converted::{self, borrowed, convert};

use crate::rooms::{Answer, answer};

pub fn archive_file(case: &ConvertCase) -> Answer {
    answer(case.room, |room| {
        let (number, record, rewritten) = archive::convert_categories(&case.file, room);
        let length = if number == 0 { case.file.len() } else { 0 };
        (vec![number.into(), record, rewritten], length as u64)
    })
}

pub fn reference_file(case: &ConvertCase) -> Answer {
    answer(case.room, |room| match convert(&case.file, room) {
        Ok(rewritten) => (vec![0, 0, rewritten], case.file.len() as u64),
        Err(refusal) => (vec![refusal.number.into(), refusal.record, 0], 0),
    })
}

/// Whether the archive finds the converted file in order, leaves it as it is when it is
/// converted again, and gives the labels of before from it.
pub fn serves(case: &ConvertCase, converted: &[u8]) -> bool {
    let again = ConvertCase {
        file: converted.to_vec(),
        room: converted.len(),
        actions: Vec::new(),
    };
    let again = archive_file(&again);
    archive::categories(converted, converted) == (0, 0)
        && again.numbers == [0, 0, 0]
        && again.written() == converted
        && case.actions.iter().all(|&action| {
            let label = archive::label(converted, &[], action);
            label_text(converted, label) == Some(borrowed(&case.file, action))
        })
}

/// The text of a label in the translation.
fn label_text(file: &[u8], (number, offset, length): (u32, u32, u32)) -> Option<&[u8]> {
    let rest = file.get(offset as usize..).filter(|_| number == 0)?;
    rest.get(..length as usize)
}

/// Whether the check refuses two files for a record of kind 1 that document 01 has
/// nothing against.
pub fn retired(translation: &[u8], house: &[u8]) -> bool {
    let file = match category::check(translation, &[]) {
        Ok(()) => house,
        Err(_) => translation,
    };
    category::check(file, &[]) != converted::check(file)
}
