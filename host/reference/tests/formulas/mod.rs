//! Formula tables for the tests.

/// Operator, left, right and action.
pub type Row = (u8, u16, u16, u16);

pub fn formulas(rows: &[Row]) -> Vec<u8> {
    let record = |row: &Row| {
        let mut record = vec![row.0, 0];
        record.extend([row.1, row.2, row.3].iter().flat_map(|n| n.to_le_bytes()));
        record
    };
    rows.iter().flat_map(record).collect()
}
