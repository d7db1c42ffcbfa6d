//! Category files with borrowed labels, which document 01 had (kind 1), and their
//! conversion to files in which each record has its own text (F-6).

use crate::category::{
    CATEGORY, Record, TEXT, action, faultless, find, lender, own_text, spare_bytes_zero, table,
};
use crate::{Refusal, refused};

/// The actions of the records whose kind byte is 0.
struct Lenders([u64; 1024]);

impl Lenders {
    fn of(records: &[Record]) -> Lenders {
        let mut set = [0; 1024];
        for record in records.iter().filter(|record| record[2] == 0) {
            let action = action(record);
            set[usize::from(action >> 6)] |= 1 << (action & 63);
        }
        Lenders(set)
    }

    fn has(&self, action: u16) -> bool {
        self.0[usize::from(action >> 6)] >> (action & 63) & 1 == 1
    }

    /// Whether a record is a good one of kind 1, apart from the order of the actions.
    fn lend_to(&self, record: &Record) -> bool {
        let no_text = record[TEXT..].iter().all(|&b| b == 0);
        record[2] == 1 && no_text && spare_bytes_zero(record) && self.has(lender(record))
    }
}

/// The records of a file that document 01 calls good, or refusal 9 or 10.
fn good_records(file: &[u8]) -> Result<&[Record], Refusal> {
    let records = table(file)?;
    let lenders = Lenders::of(records);
    faultless(records, |record| {
        own_text(record) || lenders.lend_to(record)
    })?;
    Ok(records)
}

/// Document 01's check of one file: nothing, or refusal 9 or 10.
pub fn check(file: &[u8]) -> Result<(), Refusal> {
    good_records(file).map(|_| ())
}

/// Makes a record of kind 1 one of kind 0 with the text that it borrowed.
fn rewrite(record: &mut [u8], records: &[Record], lender: u16) {
    let lender = find(records, lender).expect("a good file has the lender");
    record[2] = 0;
    record[4..6].fill(0);
    record[TEXT..].copy_from_slice(&records[lender][TEXT..]);
}

/// Writes the converted file to the start of the room and gives the number of records
/// rewritten, or refusal 9, 10 or 12, with which nothing is written.
pub fn convert(file: &[u8], room: &mut [u8]) -> Result<u64, Refusal> {
    let records = good_records(file)?;
    let Some(converted) = room.get_mut(..file.len()) else {
        return refused(12);
    };
    converted.copy_from_slice(file);
    let mut rewritten = 0;
    let pairs = records.iter().zip(converted.chunks_exact_mut(CATEGORY));
    for (before, record) in pairs.filter(|(before, _)| before[2] == 1) {
        rewrite(record, records, lender(before));
        rewritten += 1;
    }
    Ok(rewritten)
}

/// The label that document 01 gave an action in one good file, by plain search; empty
/// where there is none. For tests, beside the conversion.
pub fn borrowed(file: &[u8], action: u16) -> &[u8] {
    let named = |wanted: &[u8]| file.chunks(CATEGORY).find(|record| record[..2] == *wanted);
    let record = named(&action.to_le_bytes());
    let text = match record {
        Some(record) if record[2] == 1 => named(&record[4..6]),
        _ => record,
    };
    let text = text.map_or(&[][..], |record| &record[TEXT..]);
    text.split(|&b| b == 0).next().unwrap_or(&[])
}
