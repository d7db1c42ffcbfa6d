//! Tables for the tests.

/// A net's table from pre, post and action.
pub fn table(rows: &[(u64, u64, u16)]) -> Vec<u8> {
    let record = |row: &(u64, u64, u16)| {
        let mut record = Vec::new();
        record.extend(row.0.to_le_bytes());
        record.extend(row.1.to_le_bytes());
        record.extend(row.2.to_le_bytes());
        record.extend([0; 6]);
        record
    };
    rows.iter().flat_map(record).collect()
}

pub const NET_R: [(u64, u64, u16); 3] = [(1, 1, 1), (2, 4, 2), (4, 0, 3)];

pub fn ask(marking: u64, formula: u16, places: u8, side: u8) -> Vec<u8> {
    let mut ask = marking.to_le_bytes().to_vec();
    ask.extend(formula.to_le_bytes());
    ask.extend([places, side]);
    ask
}
