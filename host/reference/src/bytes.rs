//! Little-endian numbers and tables of records of one fixed size.

pub fn u16_at<const N: usize>(record: &[u8; N], at: usize) -> u16 {
    u16::from_le_bytes([record[at], record[at + 1]])
}

pub fn u32_at<const N: usize>(record: &[u8; N], at: usize) -> u32 {
    u32::from_le_bytes(std::array::from_fn(|i| record[at + i]))
}

pub fn u64_at<const N: usize>(record: &[u8; N], at: usize) -> u64 {
    u64::from_le_bytes(std::array::from_fn(|i| record[at + i]))
}

/// The records of a table, if it is a whole number of them and that number
/// lies in the range.
pub fn records<const N: usize>(
    table: &[u8],
    range: std::ops::RangeInclusive<usize>,
) -> Option<&[[u8; N]]> {
    let count = table.len() / N;
    if table.len() % N != 0 || !range.contains(&count) {
        return None;
    }
    // SAFETY: the table has `count` times N bytes, and an array of bytes is aligned like a byte.
    // Rust 1.88 has `as_chunks` for this.
    Some(unsafe { std::slice::from_raw_parts(table.as_ptr().cast(), count) })
}
