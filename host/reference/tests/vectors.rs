//! The reference agrees with every line of the vectors.

use reference::check::{ASK, NODE, Verdict};
use reference::formula::FORMULA;
use reference::joined::{Half, join};
use reference::saved::save;
use reference::written::{Written, write};
use reference::{category, check, converted, net, pnml, pnml_definition};

fn lines(name: &str) -> Vec<(Vec<String>, String)> {
    let path = format!("{}/../vectors/{name}", env!("CARGO_MANIFEST_DIR"));
    let text = std::fs::read_to_string(&path).expect("the vectors are readable");
    let split = |line: &str| {
        let (input, answer) = line.split_once(" = ").expect("a line has an answer");
        let fields = input.split(' ').map(str::to_owned).collect();
        (fields, answer.to_owned())
    };
    text.lines().map(split).collect()
}

fn bytes(hex: &str) -> Vec<u8> {
    if hex == "-" {
        return Vec::new();
    }
    let digit = |c: u8| (c as char).to_digit(16).expect("a hex digit") as u8;
    let pairs = hex.as_bytes().chunks(2);
    pairs
        .map(|pair| digit(pair[0]) << 4 | digit(pair[1]))
        .collect()
}

fn hex(bytes: &[u8]) -> String {
    if bytes.is_empty() {
        return "-".to_owned();
    }
    bytes.iter().map(|b| format!("{b:02x}")).collect()
}

/// Room of a field's length, filled with what no call writes all over.
fn room(length: &str) -> Vec<u8> {
    vec![0xA5; length.parse().expect("a length")]
}

/// What stands at the start of the room. The rest must be as it was.
fn written(room: &[u8], length: usize) -> String {
    assert!(room[length..].iter().all(|&b| b == 0xA5));
    hex(&room[..length])
}

/// Compares each line's answer with the one that `answer` gives.
fn agree(name: &str, count: usize, answer: impl Fn(&[String]) -> String) {
    let lines = lines(name);
    assert_eq!(lines.len(), count, "{name}");
    for (number, (fields, expected)) in lines.iter().enumerate() {
        assert_eq!(&answer(fields), expected, "{name} line {}", number + 1);
    }
}

fn agree_on_trees(name: &str, count: usize) {
    agree(name, count, |fields| {
        let tables: Vec<Vec<u8>> = fields.iter().map(|field| bytes(field)).collect();
        check::check(&tables[0], &tables[1], &tables[2], &tables[3]).to_string()
    });
}

#[test]
fn trees() {
    agree_on_trees("trees.txt", 500);
    agree_on_trees("trees_4.txt", 160);
}

fn agree_on_labels(name: &str, count: usize) {
    agree(name, count, |fields| {
        let (translation, house) = (bytes(&fields[0]), bytes(&fields[1]));
        let action = fields[2].parse().expect("an action");
        let (number, record) = match category::check(&translation, &house) {
            Ok(()) => (0, 0),
            Err(refusal) => (refusal.number, refusal.record),
        };
        let label = category::label(&translation, &house, action);
        let (file, offset, length) = (label.file, label.offset, label.length);
        format!("{number} {record} {file} {offset} {length}")
    });
}

#[test]
fn labels() {
    agree_on_labels("labels.txt", 621);
    agree_on_labels("labels_6.txt", 160);
}

/// Number, record, marking after, missing and occupied.
fn firing(fields: &[String]) -> (u32, u64, u64, u64, u64) {
    let places = fields[0].parse().expect("places");
    let marking = fields[1].parse().expect("a marking");
    let transition = fields[3].parse().expect("a transition");
    net::fire(places, marking, &bytes(&fields[2]), transition).numbers()
}

#[test]
fn firings() {
    agree("firings.txt", 800, |fields| {
        let (number, record, after, _, _) = firing(fields);
        format!("{number} {record} {after}")
    });
    agree("firings_7.txt", 160, |fields| {
        let (number, record, after, missing, occupied) = firing(fields);
        format!("{number} {record} {after} {missing} {occupied}")
    });
}

fn agree_on_written(name: &str, count: usize) {
    agree(name, count, |fields| {
        let places = fields[0].parse().expect("places");
        let marking = fields[1].parse().expect("a marking");
        let mut room = room(&fields[3]);
        let answer = pnml::write(places, marking, &bytes(&fields[2]), &mut room);
        let (number, record, length) = match answer {
            Ok(length) => (0, 0, length),
            Err(refusal) => (refusal.number, refusal.record, 0),
        };
        format!("{number} {record} {}", written(&room, length))
    });
}

#[test]
fn written_drawings() {
    agree_on_written("pnml_write_1.txt", 160);
    agree_on_written("pnml_write.txt", 160);
}

fn agree_on_read(name: &str, count: usize) {
    agree(name, count, |fields| {
        let (text, mut room) = (bytes(&fields[0]), room(&fields[1]));
        let read = pnml::read(&text, &mut room);
        let net = written(&room, read.map_or(0, |read| read.length));
        if text.len() < 8000 {
            let found = read.map(|read| (read.places, read.marking, bytes(&net)));
            assert_eq!(found, pnml_definition::answer(&text, room.len()));
        }
        match read {
            Ok(read) => format!("0 0 {} {} {net}", read.places, read.marking),
            Err(refusal) => format!("{} {} 0 0 {net}", refusal.number, refusal.record),
        }
    });
}

#[test]
fn read_drawings() {
    agree_on_read("pnml_read_1.txt", 299);
    agree_on_read("pnml_read.txt", 320);
}

/// The most nodes of a tree that the vectors write out.
const LONG: u64 = 1000;

#[test]
fn written_trees() {
    agree("written.txt", 160, |fields| {
        let [mut ask, net, formulas] = [0, 1, 2].map(|i| bytes(&fields[i]));
        let mut room = room(&fields[3]);
        let Written { side, nodes } = match write(&ask, &net, &formulas, &mut room) {
            Ok(answer) => answer,
            Err(refusal) => {
                let tree = written(&room, 0);
                return format!("{} {} 0 0 {tree}", refusal.number, refusal.record);
            }
        };
        let length = nodes as usize * NODE;
        let tree = written(&room, length);
        ask[11] = side;
        let verdict = check::check(&ask, &net, &formulas, &room[..length]);
        assert_eq!(verdict, Verdict::Accepted { nodes });
        let tree = if nodes > LONG { "long" } else { &tree };
        format!("0 0 {side} {nodes} {tree}")
    });
}

#[test]
fn converted_files() {
    agree("converted.txt", 160, |fields| {
        let (file, mut room) = (bytes(&fields[0]), room(&fields[1]));
        match converted::convert(&file, &mut room) {
            Ok(rewritten) => format!("0 0 {rewritten} {}", written(&room, file.len())),
            Err(refusal) => {
                let nothing = written(&room, 0);
                format!("{} {} 0 {nothing}", refusal.number, refusal.record)
            }
        }
    });
}

#[test]
fn joint_nets() {
    agree("joined.txt", 160, |fields| {
        let nets = [bytes(&fields[2]), bytes(&fields[5])];
        let [first, second] = [0, 1].map(|i| Half {
            places: fields[3 * i].parse().expect("places"),
            marking: fields[3 * i + 1].parse().expect("a marking"),
            net: &nets[i],
        });
        let mut room = room(&fields[6]);
        match join(first, second, &mut room) {
            Ok(joined) => {
                let net = written(&room, joined.length);
                format!("0 0 {} {} {net}", joined.places, joined.marking)
            }
            Err(refusal) => {
                let nothing = written(&room, 0);
                format!("{} {} 0 0 {nothing}", refusal.number, refusal.record)
            }
        }
    });
}

#[test]
fn saved_tables() {
    agree("saved.txt", 160, |fields| {
        let [ask, net, formulas, tree] = [0, 1, 2, 3].map(|i| bytes(&fields[i]));
        let mut rooms = [4, 5, 6].map(|i| room(&fields[i]));
        let lent = rooms.each_mut().map(|room| &mut room[..]);
        let (number, place, left, lengths) = match save(&ask, &net, &formulas, &tree, lent) {
            Ok(left) => (0, 0, left, [ASK, left as usize * FORMULA, tree.len()]),
            Err(refusal) => (refusal.number, refusal.record, 0, [0; 3]),
        };
        let tables = [0, 1, 2].map(|i| written(&rooms[i], lengths[i]));
        format!("{number} {place} {left} {}", tables.join(" "))
    });
}
