//! Pairs of category files with actions to look up, and files to convert.

use reference::category::{CATEGORIES, CATEGORY};

use crate::prng::Prng;
use crate::rooms::room;

pub struct LabelCase {
    pub translation: Vec<u8>,
    pub house: Vec<u8>,
    pub actions: Vec<u16>,
}

/// A file, the length of the room, and actions to look up before and after.
#[derive(Clone, Debug, PartialEq, Eq)]
pub struct ConvertCase {
    pub file: Vec<u8>,
    pub room: usize,
    pub actions: Vec<u16>,
}

const EDGE_BYTES: [u8; 12] = [
    0x00, 0x01, 0x1F, 0x20, 0x21, 0x7E, 0x7F, 0x80, 0x9F, 0xA0, 0xA1, 0xFF,
];

/// Files with borrowed labels are refused, so most have none.
pub fn label_case(rng: &mut Prng) -> LabelCase {
    let borrowed = rng.pick(&[0, 0, 0, 0, 0, 0, 0, 10, 30, 60]);
    let translation = file(rng, borrowed);
    let house = file(rng, borrowed);
    let actions = actions(rng, &translation, &house);
    LabelCase {
        translation,
        house,
        actions,
    }
}

pub fn convert_case(rng: &mut Prng) -> ConvertCase {
    let borrowed = rng.pick(&[0, 30, 30, 60, 95]);
    let file = file(rng, borrowed);
    ConvertCase {
        room: room(rng, file.len(), CATEGORY),
        actions: actions(rng, &file, &file),
        file,
    }
}

fn actions(rng: &mut Prng, translation: &[u8], house: &[u8]) -> Vec<u16> {
    (0..4).map(|_| action(rng, translation, house)).collect()
}

/// An action of one of the files, a neighbour of one, or any.
fn action(rng: &mut Prng, translation: &[u8], house: &[u8]) -> u16 {
    let file = if rng.percent(50) { translation } else { house };
    let records = file.len() / CATEGORY;
    if records == 0 || rng.percent(15) {
        return rng.below(20) as u16;
    }
    let at = rng.below(records) * CATEGORY;
    let action = u16::from_le_bytes([file[at], file[at + 1]]);
    match rng.below(6) {
        0 => action.wrapping_add(1),
        1 => action.wrapping_sub(1),
        _ => action,
    }
}

/// A file, damaged in about 30 of 100 calls.
fn file(rng: &mut Prng, borrowed: usize) -> Vec<u8> {
    let count = match rng.below(200) {
        0 => CATEGORIES,
        1 => CATEGORIES + 1,
        2 => CATEGORIES - 1,
        3..=30 => 0,
        _ => rng.between(1, 8),
    };
    let mut file = good_file(rng, count, borrowed);
    if rng.percent(30) {
        damage(rng, &mut file);
    }
    file
}

/// A file in good order, with about `borrowed` of 100 records of kind 1, but not all.
fn good_file(rng: &mut Prng, count: usize, borrowed: usize) -> Vec<u8> {
    let mut actions = Vec::with_capacity(count);
    let mut action = rng.below(3);
    if count <= 20 && rng.percent(10) {
        action += rng.pick(&[250, 65_500]);
    }
    for _ in 0..count {
        actions.push(action as u16);
        action += if count > 20 {
            rng.between(1, 30)
        } else {
            rng.between(1, 3)
        };
    }
    if count > 0 && rng.percent(3) {
        actions[count - 1] = u16::MAX;
    }
    let own = rng.below(count.max(1));
    let lends: Vec<bool> = (0..count)
        .map(|i| i == own || !rng.percent(borrowed))
        .collect();
    let lenders: Vec<u16> = (0..count)
        .filter(|&i| lends[i])
        .map(|i| actions[i])
        .collect();
    let mut file = Vec::with_capacity(count * CATEGORY);
    for i in 0..count {
        let record = match lends[i] {
            true => named(actions[i], &text(rng)),
            false => borrower(actions[i], rng.pick(&lenders)),
        };
        file.extend(record);
    }
    file
}

/// A record of kind 1.
pub fn borrower(action: u16, lender: u16) -> [u8; CATEGORY] {
    let mut record = [0; CATEGORY];
    record[0..2].copy_from_slice(&action.to_le_bytes());
    record[2] = 1;
    record[4..6].copy_from_slice(&lender.to_le_bytes());
    record
}

/// A record of kind 0.
pub fn named(action: u16, text: &[u8]) -> [u8; CATEGORY] {
    let mut record = [0; CATEGORY];
    record[0..2].copy_from_slice(&action.to_le_bytes());
    record[8..8 + text.len()].copy_from_slice(text);
    record
}

fn text(rng: &mut Prng) -> Vec<u8> {
    let length = match rng.below(5) {
        0 => 1,
        1 => 24,
        _ => rng.between(1, 24),
    };
    let byte = |rng: &mut Prng| match rng.below(8) {
        0 => rng.pick(&[0x20, 0x7E, 0xA0, 0xFF]),
        1 => rng.between(0xA0, 0xFF) as u8,
        _ => rng.between(0x20, 0x7E) as u8,
    };
    (0..length).map(|_| byte(rng)).collect()
}

/// Whether a file has a record of kind 1.
pub fn has_borrower(file: &[u8]) -> bool {
    file.chunks_exact(CATEGORY).any(|record| record[2] == 1)
}

/// One to three changes, near the front for large files as often as not.
fn damage(rng: &mut Prng, file: &mut Vec<u8>) {
    for _ in 0..rng.pick(&[1, 1, 2, 3]) {
        damage_once(rng, file);
    }
}

/// A record to damage, one of kind 1 as often as not.
fn damaged(rng: &mut Prng, file: &[u8]) -> usize {
    let records = file.len() / CATEGORY;
    let borrowers: Vec<usize> = (0..records)
        .filter(|i| file[i * CATEGORY + 2] == 1)
        .collect();
    match borrowers.is_empty() || rng.percent(50) {
        true => rng.below(records),
        false => rng.pick(&borrowers),
    }
}

fn damage_once(rng: &mut Prng, file: &mut Vec<u8>) {
    let records = file.len() / CATEGORY;
    if records == 0 || rng.percent(6) {
        let length = match rng.below(4) {
            0 => rng.below(file.len() + 1),
            1 => file.len() + 1,
            2 => file.len().saturating_sub(1),
            _ => file.len() + CATEGORY,
        };
        file.resize(length, 0);
        return;
    }
    let (a, b) = (damaged(rng, file), rng.below(records));
    let (at, other) = (a * CATEGORY, b * CATEGORY);
    match rng.below(11) {
        0 => file[at + rng.below(CATEGORY)] = rng.number() as u8,
        1 => file[at + 8 + rng.below(24)] = rng.pick(&EDGE_BYTES),
        2 => file[at + 2] = rng.pick(&[0, 1, 2, 3, 255]),
        3 => file[at + 3] ^= 1 << rng.below(8),
        4 => file[at + rng.pick(&[6, 7])] ^= 1 << rng.below(8),
        5 => (0..CATEGORY).for_each(|i| file.swap(at + i, other + i)),
        6 => file.copy_within(other..other + 2, at),
        7 => file.copy_within(other..other + CATEGORY, at),
        8 => {
            file.copy_within(other..other + 2, at + 4);
            if rng.percent(70) {
                file[at + 2] = 1;
                file[at + 8..at + CATEGORY].fill(0);
            }
        }
        9 => file[at + 8..at + CATEGORY].fill(0),
        _ => file[at + 4] = rng.below(20) as u8,
    }
}
