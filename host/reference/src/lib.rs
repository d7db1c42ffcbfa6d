//! An independent implementation of document 01: the single firing, the
//! category files, the tree check, the program's line, and the meaning of
//! formulas on the graph of reachable markings. Of document 02: nets as PNML
//! text (F-1), optional transitions (F-4), the tree of a formula without "until"
//! (F-5), the end of borrowed labels (F-6), why a step is not enabled (F-7), two
//! nets side by side (F-8), and room in the formula table (F-10).

pub mod bytes;
pub mod category;
pub mod check;
pub mod converted;
pub mod formula;
pub mod joined;
pub mod meaning;
pub mod net;
pub mod pnml;
pub mod pnml_definition;
pub mod rules;
pub mod saved;
pub mod written;

/// A call refused because of its input: the documents' number and the record
/// (with 13 the offset, with 20 to 26 the node).
#[derive(Clone, Copy, Debug, PartialEq, Eq)]
pub struct Refusal {
    pub number: u32,
    pub record: u64,
}

/// A refusal that reports record 0.
pub(crate) fn refused<T>(number: u32) -> Result<T, Refusal> {
    refused_at(number, 0)
}

/// A refusal that reports a record.
pub(crate) fn refused_at<T>(number: u32, record: usize) -> Result<T, Refusal> {
    Err(Refusal {
        number,
        record: record as u64,
    })
}
