//! Generated category files on the converter: what it writes is what document 02 says,
//! record by record, and the labels are those of document 01.

use std::collections::BTreeMap;

use generate::categories::{ConvertCase, convert_case, has_borrower, label_case};
use generate::prng::Prng;
use reference::category::{self, CATEGORIES, CATEGORY, Label, label};
use reference::converted::{borrowed, check, convert};

fn action(record: &[u8]) -> u16 {
    u16::from_le_bytes([record[0], record[1]])
}

/// Whether a record has become what it must.
fn is_right(file: &[u8], before: &[u8], after: &[u8]) -> bool {
    let lends = |record: &&[u8]| record[2] == 0 && record[..2] == before[4..6];
    match before[2] {
        1 => {
            let lender = file.chunks(CATEGORY).find(lends).expect("a lender");
            after[..2] == before[..2] && after[2..8] == [0; 6] && after[8..] == lender[8..]
        }
        _ => after == before,
    }
}

/// The text of a label in one file.
fn text(file: &[u8], action: u16) -> &[u8] {
    let Label { offset, length, .. } = label(file, &[], action);
    &file[offset as usize..][..length as usize]
}

/// Sees that the converted file is the right one, in order and final.
fn all_right(case: &ConvertCase, rewritten: u64, after: &[u8]) {
    let file = &case.file[..];
    let mut pairs = file.chunks(CATEGORY).zip(after.chunks(CATEGORY));
    assert!(pairs.all(|(before, after)| is_right(file, before, after)));
    let borrowers = file.chunks(CATEGORY).filter(|record| record[2] == 1);
    assert_eq!(rewritten, borrowers.count() as u64);
    assert_eq!(category::check(after, after), Ok(()));
    let mut again = vec![0; after.len()];
    assert_eq!(convert(after, &mut again), Ok(0));
    assert_eq!(again, after);
    let own = file.chunks(CATEGORY).map(action).take(20);
    for action in own.chain(case.actions.iter().copied()) {
        assert_eq!(text(after, action), borrowed(file, action));
    }
}

#[test]
fn files() {
    let mut rng = Prng::new(1);
    let mut answers = BTreeMap::<u32, usize>::new();
    let (mut with_borrowers, mut full) = (0, 0);
    for _ in 0..30_000 {
        let case = convert_case(&mut rng);
        let fill = rng.number() as u8;
        let mut room = vec![fill; case.room];
        let answer = convert(&case.file, &mut room);
        let number = answer.map_or_else(|refusal| refusal.number, |_| 0);
        *answers.entry(number).or_default() += 1;
        let length = answer.map_or(0, |_| case.file.len());
        assert!(room[length..].iter().all(|&b| b == fill));
        let Ok(rewritten) = answer else { continue };
        all_right(&case, rewritten, &room[..length]);
        with_borrowers += usize::from(rewritten > 0);
        full += usize::from(rewritten > 0 && length == CATEGORIES * CATEGORY);
    }
    println!("{answers:?}, {with_borrowers} with borrowers, {full} of them full");
    assert!(answers.keys().eq(&[0, 9, 10, 12]));
    assert!(with_borrowers > 5000 && full > 10);
}

/// Files with borrowed labels give none, and few have them.
#[test]
fn labels() {
    let mut rng = Prng::new(1);
    let (mut retired, mut found) = (0, 0);
    for _ in 0..10_000 {
        let case = label_case(&mut rng);
        let labelled = |action: &&u16| label(&case.translation, &case.house, **action).length > 0;
        let labels = case.actions.iter().filter(labelled).count();
        found += labels;
        for file in [&case.translation, &case.house] {
            if has_borrower(file) {
                assert!(category::check(file, &[]).is_err());
                assert_eq!(labels, 0);
                retired += usize::from(check(file).is_ok());
            }
        }
    }
    println!("{found} labels, {retired} files that are to be converted");
    assert!(found > 5000 && retired > 1000);
}

#[test]
fn the_same_cases_for_a_seed() {
    let cases = |seed: u64| -> Vec<ConvertCase> {
        let mut rng = Prng::new(seed);
        (0..200).map(|_| convert_case(&mut rng)).collect()
    };
    assert_eq!(cases(3), cases(3));
    assert_ne!(cases(3), cases(4));
}
