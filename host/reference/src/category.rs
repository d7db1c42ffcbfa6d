//! Category files: the check of two files and the label of an action. Kind 1 is retired
//! (F-6): each record has its own text.

use crate::bytes::{records, u16_at};
use crate::{Refusal, refused, refused_at};

/// The bytes of a category record.
pub const CATEGORY: usize = 32;
/// The most records of a file.
pub const CATEGORIES: usize = 2_000;

/// Where a record's text stands.
pub(crate) const TEXT: usize = 8;

pub(crate) type Record = [u8; CATEGORY];

pub(crate) fn action(record: &Record) -> u16 {
    u16_at(record, 0)
}

pub(crate) fn lender(record: &Record) -> u16 {
    u16_at(record, 4)
}

fn allowed(byte: u8) -> bool {
    matches!(byte, 0x20..=0x7E | 0xA0..=0xFF)
}

/// The number of bytes of a text before its padding.
fn text_length(record: &Record) -> usize {
    let text = &record[TEXT..];
    text.iter().position(|&b| b == 0).unwrap_or(text.len())
}

/// Whether the text has 1 to 24 allowed bytes, then zeros.
fn good_text(record: &Record) -> bool {
    let (text, padding) = record[TEXT..].split_at(text_length(record));
    !text.is_empty() && text.iter().all(|&b| allowed(b)) && padding.iter().all(|&b| b == 0)
}

pub(crate) fn spare_bytes_zero(record: &Record) -> bool {
    record[3] == 0 && record[6] == 0 && record[7] == 0
}

/// Whether a record is a good one of kind 0, apart from the order of the actions.
pub(crate) fn own_text(record: &Record) -> bool {
    record[2] == 0 && lender(record) == 0 && spare_bytes_zero(record) && good_text(record)
}

/// The records of a file, or refusal 9.
pub(crate) fn table(file: &[u8]) -> Result<&[Record], Refusal> {
    match records(file, 0..=CATEGORIES) {
        Some(records) => Ok(records),
        None => refused(9),
    }
}

/// Nothing where every record is good and its action above the one before, or
/// refusal 10.
pub(crate) fn faultless(records: &[Record], good: impl Fn(&Record) -> bool) -> Result<(), Refusal> {
    let mut above = 0u32;
    for (number, record) in records.iter().enumerate() {
        let action = u32::from(action(record));
        if action < above || !good(record) {
            return refused_at(10, number);
        }
        above = action + 1;
    }
    Ok(())
}

/// The records of a good file, or refusal 9 or 10.
fn good_records(file: &[u8]) -> Result<&[Record], Refusal> {
    let records = table(file)?;
    faultless(records, own_text)?;
    Ok(records)
}

/// The check of the two files: nothing, or refusal 9 or 10.
pub fn check(translation: &[u8], house: &[u8]) -> Result<(), Refusal> {
    good_records(translation)?;
    good_records(house)?;
    Ok(())
}

/// Where a label stands: the file (0 translation, 1 house), offset and length.
/// All are zero where there is none.
#[derive(Clone, Copy, Debug, Default, PartialEq, Eq)]
pub struct Label {
    pub file: u32,
    pub offset: u32,
    pub length: u32,
}

/// The record of an action, where the actions ascend.
pub(crate) fn find(records: &[Record], wanted: u16) -> Option<usize> {
    records.binary_search_by_key(&wanted, action).ok()
}

/// The label of an action.
pub fn label(translation: &[u8], house: &[u8], action: u16) -> Label {
    let (Ok(translation), Ok(house)) = (good_records(translation), good_records(house)) else {
        return Label::default();
    };
    let found = |file: u32, records: &[Record]| {
        find(records, action).map(|number| Label {
            file,
            offset: (number * CATEGORY + TEXT) as u32,
            length: text_length(&records[number]) as u32,
        })
    };
    let label = found(0, translation).or_else(|| found(1, house));
    label.unwrap_or_default()
}
