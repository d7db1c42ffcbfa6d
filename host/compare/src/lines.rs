//! Cases as lines of text in the form of the vectors, and their replay.

use std::process::ExitCode;

use generate::cases::TreeCase;
use generate::categories::{ConvertCase, LabelCase};
use generate::firings::FiringCase;
use generate::joined::JoinCase;
use generate::nets::LentNet;
use generate::pnml::{ReadCase, WriteCase};
use generate::saved::SaveCase;
use generate::written::WrittenCase;
use reference::check::Verdict;
use reference::{category, check};

use crate::converted;
use crate::drawings;
use crate::firings;
use crate::joined;
use crate::rooms::Answer;
use crate::saved;
use crate::written;

pub fn hex(bytes: &[u8]) -> String {
    if bytes.is_empty() {
        return "-".to_owned();
    }
    bytes.iter().map(|b| format!("{b:02x}")).collect()
}

pub fn bytes(hex: &str) -> Vec<u8> {
    if hex == "-" {
        return Vec::new();
    }
    let byte = |i: usize| u8::from_str_radix(&hex[i..i + 2], 16).expect("hex digits");
    (0..hex.len()).step_by(2).map(byte).collect()
}

/// The four tables of a tree.
fn tables(case: &TreeCase) -> String {
    let tables = [&case.ask, &case.net, &case.formulas, &case.tree];
    tables.map(|t| hex(t)).join(" ")
}

pub fn tree(case: &TreeCase, expected: (u32, u64), found: (u32, u64)) -> String {
    let tables = tables(case);
    let (expected, found) = (verdict(expected), verdict(found));
    format!("tree {tables} = {expected} but {found}")
}

/// The first action whose answers differ.
pub fn labels(case: &LabelCase) -> String {
    let answers = |action: u16| {
        let expected = reference_labels(&case.translation, &case.house, action);
        (
            expected,
            archive_labels(&case.translation, &case.house, action),
        )
    };
    let differs = |&&action: &&u16| {
        let (expected, found) = answers(action);
        expected != found
    };
    let action = case.actions.iter().find(differs).copied().unwrap_or(0);
    let (expected, found) = answers(action);
    let (translation, house) = (hex(&case.translation), hex(&case.house));
    format!("label {translation} {house} {action} = {expected} but {found}")
}

pub fn firing(case: &FiringCase, expected: firings::Answer, found: firings::Answer) -> String {
    let (places, marking, transition) = (case.places, case.marking, case.transition);
    let net = hex(&case.net);
    let (expected, found) = (five(expected), five(found));
    format!("firing {places} {marking} {net} {transition} = {expected} but {found}")
}

pub fn write(case: &WriteCase, expected: &Answer, found: &Answer) -> String {
    let (places, marking, room) = (case.places, case.marking, case.room);
    let net = hex(&case.net);
    format!("pnml_write {places} {marking} {net} {room} = {expected} but {found}")
}

pub fn read(case: &ReadCase, expected: &Answer, found: &Answer) -> String {
    let (text, room) = (hex(&case.text), case.room);
    format!("pnml_read {text} {room} = {expected} but {found}")
}

pub fn written(case: &WrittenCase, expected: &Answer, found: &Answer) -> String {
    let tables = [&case.ask, &case.net, &case.formulas].map(|t| hex(t));
    let (tables, room) = (tables.join(" "), case.room);
    format!("written {tables} {room} = {expected} but {found}")
}

pub fn converted(case: &ConvertCase, expected: &Answer, found: &Answer) -> String {
    let (file, room) = (hex(&case.file), case.room);
    format!("converted {file} {room} = {expected} but {found}")
}

pub fn joined(case: &JoinCase, expected: &Answer, found: &Answer) -> String {
    let nets = [&case.first, &case.second]
        .map(|lent| format!("{} {} {}", lent.places, lent.marking, hex(&lent.net)));
    let (nets, room) = (nets.join(" "), case.room);
    format!("joined {nets} {room} = {expected} but {found}")
}

pub fn saved(case: &SaveCase, expected: &Answer, found: &Answer) -> String {
    let (tables, [ask, formulas, tree]) = (tables(&case.tables), case.rooms);
    format!("saved {tables} {ask} {formulas} {tree} = {expected} but {found}")
}

/// A firing's answer, and the same without the sets.
fn five((number, record, after, missing, occupied): firings::Answer) -> String {
    format!("{number} {record} {after} {missing} {occupied}")
}

fn three((number, record, after, _, _): firings::Answer) -> String {
    format!("{number} {record} {after}")
}

/// The program's line for the numbers of a C answer.
fn verdict((number, place): (u32, u64)) -> String {
    let verdict = match number {
        0 => Verdict::Accepted { nodes: place },
        20.. => Verdict::Broken {
            fault: number,
            node: place,
        },
        _ => Verdict::Refused {
            number,
            record: place,
        },
    };
    verdict.to_string()
}

fn reference_labels(translation: &[u8], house: &[u8], action: u16) -> String {
    let (number, record) = match category::check(translation, house) {
        Ok(()) => (0, 0),
        Err(refusal) => (refusal.number, refusal.record),
    };
    let label = category::label(translation, house, action);
    let (file, offset, length) = (label.file, label.offset, label.length);
    format!("{number} {record} {file} {offset} {length}")
}

fn archive_labels(translation: &[u8], house: &[u8], action: u16) -> String {
    let (number, record) = archive::categories(translation, house);
    let (file, offset, length) = archive::label(translation, house, action);
    format!("{number} {record} {file} {offset} {length}")
}

/// The four tables that a line's fields begin with.
fn tree_case(fields: &[&str]) -> TreeCase {
    let [ask, net, formulas, tree] = [0, 1, 2, 3].map(|i| bytes(fields[i]));
    TreeCase {
        ask,
        net,
        formulas,
        tree,
    }
}

/// The archive's and the reference's answer to a line's input. A line of the kind "fired"
/// is a firing's, without the sets.
fn answers(kind: &str, input: &str) -> (String, String) {
    let fields: Vec<&str> = input.split(' ').collect();
    match kind {
        "tree" => {
            let t = tree_case(&fields);
            let found = archive::check(&t.ask, &t.net, &t.formulas, &t.tree);
            let expected = check::check(&t.ask, &t.net, &t.formulas, &t.tree);
            (verdict(found), expected.to_string())
        }
        "label" => {
            let (translation, house) = (bytes(fields[0]), bytes(fields[1]));
            let action = fields[2].parse().expect("an action");
            let found = archive_labels(&translation, &house, action);
            (found, reference_labels(&translation, &house, action))
        }
        "pnml_write" => {
            let case = WriteCase {
                places: fields[0].parse().expect("places"),
                marking: fields[1].parse().expect("a marking"),
                net: bytes(fields[2]),
                room: fields[3].parse().expect("a room"),
            };
            let found = drawings::archive_write(&case);
            let expected = drawings::reference_write(&case);
            (found.to_string(), expected.to_string())
        }
        "pnml_read" => {
            let case = ReadCase {
                text: bytes(fields[0]),
                room: fields[1].parse().expect("a room"),
            };
            let found = drawings::archive_read(&case);
            let expected = drawings::reference_read(&case);
            (found.to_string(), expected.to_string())
        }
        "written" => {
            let [ask, net, formulas] = [0, 1, 2].map(|i| bytes(fields[i]));
            let room = fields[3].parse().expect("a room");
            let case = WrittenCase {
                ask,
                net,
                formulas,
                room,
            };
            let found = written::archive_tree(&case);
            let expected = written::reference_tree(&case);
            (found.to_string(), expected.to_string())
        }
        "converted" => {
            let case = ConvertCase {
                file: bytes(fields[0]),
                room: fields[1].parse().expect("a room"),
                actions: Vec::new(),
            };
            let found = converted::archive_file(&case);
            let expected = converted::reference_file(&case);
            (found.to_string(), expected.to_string())
        }
        "joined" => {
            let lent = |i: usize| LentNet {
                places: fields[i].parse().expect("places"),
                marking: fields[i + 1].parse().expect("a marking"),
                net: bytes(fields[i + 2]),
            };
            let case = JoinCase {
                first: lent(0),
                second: lent(3),
                room: fields[6].parse().expect("a room"),
            };
            let found = joined::archive_net(&case);
            let expected = joined::reference_net(&case);
            (found.to_string(), expected.to_string())
        }
        "saved" => {
            let case = SaveCase {
                tables: tree_case(&fields),
                rooms: [4, 5, 6].map(|i| fields[i].parse().expect("a room")),
            };
            let found = saved::archive_tables(&case);
            let expected = saved::reference_tables(&case);
            (found.to_string(), expected.to_string())
        }
        _ => {
            let case = FiringCase {
                places: fields[0].parse().expect("places"),
                marking: fields[1].parse().expect("a marking"),
                net: bytes(fields[2]),
                transition: fields[3].parse().expect("a transition"),
            };
            let text = if kind == "fired" { three } else { five };
            let found = firings::archive_firing(&case);
            let expected = firings::reference_firing(&case);
            (text(found), text(expected))
        }
    }
}

/// What the lines begin with.
const KINDS: [&str; 9] = [
    "tree ",
    "label ",
    "firing ",
    "pnml_write ",
    "pnml_read ",
    "written ",
    "converted ",
    "joined ",
    "saved ",
];

/// Compares the archive with every line of the vectors.
pub fn vectors(folder: &str) -> ExitCode {
    let mut failed = 0;
    for (kind, name) in [
        ("tree", "trees"),
        ("label", "labels"),
        ("fired", "firings"),
        ("pnml_write", "pnml_write_1"),
        ("pnml_read", "pnml_read_1"),
        ("tree", "trees_4"),
        ("pnml_write", "pnml_write"),
        ("pnml_read", "pnml_read"),
        ("written", "written"),
        ("converted", "converted"),
        ("label", "labels_6"),
        ("firing", "firings_7"),
        ("joined", "joined"),
        ("saved", "saved"),
    ] {
        let path = format!("{folder}/{name}.txt");
        let text = std::fs::read_to_string(&path).expect("the vectors are readable");
        let mut agreed = 0;
        for (number, line) in text.lines().enumerate() {
            let (input, expected) = line.split_once(" = ").expect("a line has an answer");
            let (found, reference) = answers(kind, input);
            if agrees(&found, expected, &reference) {
                agreed += 1;
            } else {
                failed += 1;
                println!("{name} line {}: {expected}, but {found}", number + 1);
            }
        }
        println!("{name}: {agreed} of {} agree", text.lines().count());
    }
    ExitCode::from(u8::from(failed > 0))
}

/// Whether an answer is that of a vector, where `long` stands for the tree that the
/// reference writes.
fn agrees(found: &str, expected: &str, reference: &str) -> bool {
    match expected.strip_suffix("long") {
        Some(numbers) => found.starts_with(numbers) && found == reference,
        None => found == expected,
    }
}

/// Answers the lines that this program printed for differences.
pub fn replay(file: &str) -> ExitCode {
    let text = std::fs::read_to_string(file).expect("the file is readable");
    let mut failed = false;
    for line in text.lines() {
        let start = KINDS.iter().find_map(|kind| line.find(kind));
        let Some((kind, input)) = start.and_then(|start| line[start..].split_once(' ')) else {
            continue;
        };
        let input = input.split(" = ").next().unwrap_or(input);
        let (found, expected) = answers(kind, input);
        println!("{kind}: reference {expected}, archive {found}");
        failed |= found != expected;
    }
    ExitCode::from(u8::from(failed))
}
