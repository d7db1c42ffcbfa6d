//! Borrowed labels: refused by the check, and converted.

use reference::Refusal;
use reference::category::{self, CATEGORIES, CATEGORY, Label, label};
use reference::converted::{borrowed, check, convert};

/// What rooms are filled with before a call.
const FILL: u8 = 0xA5;

const FULL: &str = "abcdefghijklmnopqrstuvwx";

/// A record of kind 0.
fn named(action: u16, text: &str) -> Vec<u8> {
    let mut record = vec![0; CATEGORY];
    record[0..2].copy_from_slice(&action.to_le_bytes());
    record[8..8 + text.len()].copy_from_slice(text.as_bytes());
    record
}

/// A record of kind 1.
fn borrower(action: u16, lender: u16) -> Vec<u8> {
    let mut record = named(action, "");
    record[2] = 1;
    record[4..6].copy_from_slice(&lender.to_le_bytes());
    record
}

/// A file with one byte changed.
fn changed(file: &[u8], at: usize, value: u8) -> Vec<u8> {
    let mut file = file.to_vec();
    file[at] = value;
    file
}

fn refusal(number: u32, record: u64) -> Refusal {
    Refusal { number, record }
}

/// What the converter answers and writes, with so much room. What it does not write must
/// be as it was.
fn converted_in(file: &[u8], room: usize) -> Result<(u64, Vec<u8>), Refusal> {
    let mut room = vec![FILL; room];
    let answer = convert(file, &mut room);
    let length = answer.map_or(0, |_| file.len());
    let rest = room.split_off(length);
    assert!(rest.iter().all(|&b| b == FILL));
    answer.map(|rewritten| (rewritten, room))
}

/// The same with exact room, and then with more and with less of it.
fn converted(file: &[u8]) -> Result<(u64, Vec<u8>), Refusal> {
    let answer = converted_in(file, file.len());
    for more in [1, CATEGORY, 1000] {
        assert_eq!(converted_in(file, file.len() + more), answer);
    }
    if !file.is_empty() {
        let short = answer.as_ref().map_or_else(|&r| r, |_| refusal(12, 0));
        for room in [0, file.len() / 2, file.len() - 1] {
            assert_eq!(converted_in(file, room), Err(short));
        }
    }
    answer
}

/// The file and the text of a label.
fn label_of<'a>(translation: &'a [u8], house: &'a [u8], action: u16) -> (u32, &'a [u8]) {
    let Label {
        file,
        offset,
        length,
    } = label(translation, house, action);
    let bytes = [translation, house][file as usize];
    (file, &bytes[offset as usize..][..length as usize])
}

/// The same by document 01, where both files are good by it.
fn label_before<'a>(translation: &'a [u8], house: &'a [u8], action: u16) -> (u32, &'a [u8]) {
    match (borrowed(translation, action), borrowed(house, action)) {
        (b"", b"") => (0, b""),
        (b"", text) => (1, text),
        (text, _) => (0, text),
    }
}

/// Sees that a file is converted to another, whose check finds no fault and which is
/// final, and that the check refuses the first at a record.
fn becomes(file: &[u8], refused_at: Option<u64>, rewritten: u64, after: &[u8]) {
    let before = match refused_at {
        Some(record) => Err(refusal(10, record)),
        None => Ok(()),
    };
    assert_eq!(category::check(file, &[]), before);
    assert_eq!(category::check(&[], file), before);
    assert_eq!(check(file), Ok(()));
    assert_eq!(converted(file), Ok((rewritten, after.to_vec())));
    assert_eq!(category::check(after, after), Ok(()));
    assert_eq!(converted(after), Ok((0, after.to_vec())));
    for action in (0..20).chain([CATEGORIES as u16 - 1, u16::MAX]) {
        assert_eq!(
            label_of(after, &[], action),
            label_before(file, &[], action)
        );
        if refused_at.is_some() {
            assert_eq!(label(file, after, action), Label::default());
            assert_eq!(label(after, file, action), Label::default());
        }
    }
}

/// Sees that a file is refused by the converter, and by the check at `now`.
fn refuses(file: &[u8], record: u64, now: u64) {
    assert_eq!(check(file), Err(refusal(10, record)));
    assert_eq!(converted(file), Err(refusal(10, record)));
    assert_eq!(category::check(&[], file), Err(refusal(10, now)));
    assert_eq!(label(&[], file, 1), Label::default());
}

#[test]
fn lenders_before_and_behind() {
    let before = [named(1, "call"), borrower(2, 1), named(7, "x")].concat();
    let after = [named(1, "call"), named(2, "call"), named(7, "x")].concat();
    becomes(&before, Some(1), 1, &after);
    let before = [borrower(0, 9), named(1, "call"), named(9, FULL)].concat();
    let after = [named(0, FULL), named(1, "call"), named(9, FULL)].concat();
    becomes(&before, Some(0), 1, &after);
}

#[test]
fn several_borrowers_of_one() {
    let before = [
        borrower(1, 5),
        borrower(3, 5),
        named(4, "Ruf"),
        named(5, "call"),
        borrower(8, 5),
        borrower(9, 4),
        borrower(u16::MAX, 5),
    ];
    let after = [
        named(1, "call"),
        named(3, "call"),
        named(4, "Ruf"),
        named(5, "call"),
        named(8, "call"),
        named(9, "Ruf"),
        named(u16::MAX, "call"),
    ];
    becomes(&before.concat(), Some(0), 5, &after.concat());
}

#[test]
fn a_lender_with_action_0_and_one_with_the_last() {
    let before = [named(0, "none"), borrower(1, u16::MAX), borrower(2, 0)].concat();
    let before = [before, named(u16::MAX, "last")].concat();
    let after = [named(0, "none"), named(1, "last"), named(2, "none")].concat();
    let after = [after, named(u16::MAX, "last")].concat();
    becomes(&before, Some(1), 2, &after);
}

#[test]
fn files_without_borrowers_stay() {
    becomes(&[], None, 0, &[]);
    let file = [named(1, "call"), named(7, FULL), named(u16::MAX, "x")].concat();
    becomes(&file, None, 0, &file);
}

#[test]
fn full_files() {
    let last = CATEGORIES as u16 - 1;
    let own = |action: u16| named(action, "own");
    let full = |first: &dyn Fn(u16) -> Vec<u8>| {
        let records = (0..last).flat_map(first);
        records.chain(named(last, "lent")).collect::<Vec<u8>>()
    };
    becomes(&full(&own), None, 0, &full(&own));
    let lent = full(&|action| named(action, "lent"));
    let lending = full(&|action| borrower(action, last));
    becomes(&lending, Some(0), last.into(), &lent);
    for record in [own(last + 1), borrower(last + 1, last), vec![0]] {
        let file = [full(&own), record].concat();
        assert_eq!(converted(&file), Err(refusal(9, 0)));
        assert_eq!(category::check(&[], &file), Err(refusal(9, 0)));
    }
}

#[test]
fn faulty_records() {
    let good = [named(1, "call"), borrower(2, 7), named(7, FULL)].concat();
    // Kind 2, the spare bytes, a text beside the lender.
    for (at, value) in [
        (2, 2),
        (2, 255),
        (3, 1),
        (6, 1),
        (7, 128),
        (8, b'x'),
        (31, 1),
    ] {
        refuses(&changed(&good, CATEGORY + at, value), 1, 1);
    }
    // A lender that the file lacks, the record itself (2), another of kind 1 or 2.
    for (at, lender) in [(4, 0), (4, 2), (4, 3), (4, 8), (5, 7)] {
        refuses(&changed(&good, CATEGORY + at, lender), 1, 1);
    }
    refuses(&[good.clone(), borrower(8, 2)].concat(), 3, 1);
    refuses(&changed(&good, 2 * CATEGORY + 2, 2), 1, 1);
    refuses(&changed(&good, 2 * CATEGORY + 2, 1), 1, 1);
    // A lender where the kind is 0.
    refuses(&changed(&good, 4, 1), 0, 0);
    // Actions that do not ascend.
    refuses(&changed(&good, CATEGORY, 1), 1, 1);
    refuses(&changed(&good, 2 * CATEGORY, 2), 1, 1);
    refuses(&[good.clone(), borrower(7, 1)].concat(), 3, 1);
}

#[test]
fn faults_of_a_lender() {
    let good = [borrower(1, 7), named(3, "x"), named(7, FULL)].concat();
    // They count against the lender alone, be it behind the borrower or before it.
    for (at, value) in [(3, 1), (4, 1), (7, 1), (8, 0), (9, 0x1F), (31, 0x7F)] {
        refuses(&changed(&good, 2 * CATEGORY + at, value), 2, 0);
    }
    // It is still the lender where it is out of order.
    refuses(&changed(&good, CATEGORY, 8), 2, 0);
    let before = [named(1, "call"), borrower(2, 1), named(3, "\x1F")].concat();
    refuses(&before, 2, 1);
    refuses(&changed(&before, 8, 0), 0, 0);
    // A lower faulty record comes first.
    refuses(&changed(&before, 8, 0x7F), 0, 0);
    refuses(&changed(&before, CATEGORY + 3, 1), 1, 1);
}

#[test]
fn sizes() {
    let file = [named(1, "call"), borrower(2, 1), named(7, "x")].concat();
    for length in (0..file.len()).filter(|length| length % CATEGORY != 0) {
        assert_eq!(converted(&file[..length]), Err(refusal(9, 0)));
    }
    assert_eq!(converted_in(&file, 2 * CATEGORY), Err(refusal(12, 0)));
    // 10 before 12.
    let faulty = changed(&file, CATEGORY + 4, 2);
    assert_eq!(converted_in(&faulty, 0), Err(refusal(10, 1)));
}

#[test]
fn two_files() {
    let translation = [borrower(1, 4), named(4, "Ruf"), borrower(6, 4)].concat();
    let house = [
        named(1, "call"),
        borrower(2, 1),
        borrower(6, 9),
        named(9, FULL),
    ]
    .concat();
    let (_, translated) = converted(&translation).expect("a good file");
    let (_, housed) = converted(&house).expect("a good file");
    let expected: [(u16, u32, &[u8]); 7] = [
        (0, 0, b""),
        (1, 0, b"Ruf"),
        (2, 1, b"call"),
        (3, 0, b""),
        (4, 0, b"Ruf"),
        (6, 0, b"Ruf"),
        (9, 1, FULL.as_bytes()),
    ];
    for (action, file, text) in expected {
        assert_eq!(label_before(&translation, &house, action), (file, text));
        assert_eq!(label_of(&translated, &housed, action), (file, text));
        for (translation, house) in [(&translation, &housed), (&translated, &house)] {
            assert_eq!(label(translation, house, action), Label::default());
        }
    }
    assert_eq!(category::check(&translation, &house), Err(refusal(10, 0)));
    assert_eq!(category::check(&translated, &house), Err(refusal(10, 1)));
}
