//! Compares the archive with the reference.
//!
//! compare [CASES [SEED]]   generated cases (1,000,000 and seed 1 by default)
//! compare vectors FOLDER   the archive against the vectors
//! compare programs FOLDER BIN   the programs in BIN against the vectors
//! compare replay FILE      lines as this program prints them for a difference

mod converted;
mod drawings;
mod firings;
mod joined;
mod lines;
mod programs;
mod rooms;
mod saved;
mod tally;
mod written;

use std::process::ExitCode;
use std::time::Instant;

use generate::cases::{Case, Generator, Kind, TreeCase};
use generate::categories::{ConvertCase, LabelCase, convert_case, has_borrower};
use generate::encode::{has_optional, has_until};
use generate::firings::FiringCase;
use generate::joined::{JoinCase, join_case};
use generate::pnml::{ReadCase, WriteCase, read_case, write_case};
use generate::prng::Prng;
use generate::saved::{SaveCase, save_case};
use generate::written::{WrittenCase, written_case};
use reference::check::{Input, NODE, Node};
use reference::meaning::{Graph, evaluate};
use reference::rules::HOLDS;
use reference::{category, check, net};

use tally::Tally;

/// The most markings of a graph on which the meaning is evaluated.
const MARKINGS: usize = 3000;
/// Of so many cases, one more is a net to write and one a text to read.
const DRAWINGS: u64 = 8;
/// Of so many cases, one more is a claim whose tree is written, one a category file to
/// convert, one a pair of nets to join, and one a tree whose formula table is saved room in.
const CLAIMS: u64 = 5;
const CONVERSIONS: u64 = 5;
const JOINS: u64 = 5;
const SAVES: u64 = 5;

fn main() -> ExitCode {
    let arguments: Vec<String> = std::env::args().skip(1).collect();
    let arguments: Vec<&str> = arguments.iter().map(String::as_str).collect();
    match arguments.as_slice() {
        ["vectors", folder] => lines::vectors(folder),
        ["programs", folder, bin] => programs::vectors(folder, bin),
        ["replay", file] => lines::replay(file),
        [] => generated(1_000_000, 1),
        [cases] => generated(number(cases), 1),
        [cases, seed] => generated(number(cases), number(seed)),
        _ => {
            eprintln!(
                "compare [CASES [SEED]] | compare vectors FOLDER | compare programs FOLDER BIN | compare replay FILE"
            );
            ExitCode::from(2)
        }
    }
}

fn number(text: &str) -> u64 {
    text.parse().expect("a number")
}

fn generated(cases: u64, seed: u64) -> ExitCode {
    let start = Instant::now();
    let mut generator = Generator::new(seed);
    let mut drawings = Prng::new(seed);
    let mut claims = Prng::new(seed);
    let mut conversions = Prng::new(seed);
    let mut joins = Prng::new(seed);
    let mut saves = Prng::new(seed);
    let mut tally = Tally::default();
    for case in 0..cases {
        if case % DRAWINGS == 0 {
            compare_write(&mut tally, &write_case(&mut drawings));
            compare_read(&mut tally, &read_case(&mut drawings));
        }
        if case % CLAIMS == 0 {
            compare_written(&mut tally, &written_case(&mut claims));
        }
        if case % CONVERSIONS == 0 {
            compare_converted(&mut tally, &convert_case(&mut conversions));
        }
        if case % JOINS == 0 {
            compare_joined(&mut tally, &join_case(&mut joins));
        }
        if case % SAVES == 0 {
            compare_saved(&mut tally, &save_case(&mut saves));
        }
        match generator.case() {
            Case::Tree(kind, case) => compare_tree(&mut tally, kind, &case),
            Case::Label(case) => compare_labels(&mut tally, &case),
            Case::Firing(case) => compare_firing(&mut tally, &case),
        }
    }
    tally.stuck = generator.stuck;
    tally.too_large = generator.too_large;
    tally.too_many_markings = generator.too_many_markings;
    let seconds = start.elapsed().as_secs_f64();
    println!("seed {seed}, {cases} cases in {seconds:.1} s");
    tally.print();
    match tally.passed() {
        true => ExitCode::SUCCESS,
        false => ExitCode::FAILURE,
    }
}

fn compare_tree(tally: &mut Tally, kind: Kind, case: &TreeCase) {
    let expected = check::check(&case.ask, &case.net, &case.formulas, &case.tree).numbers();
    let found = archive::check(&case.ask, &case.net, &case.formulas, &case.tree);
    tally.tree(kind, has_optional(&case.net), expected.0);
    tally.answer(expected.0);
    if found != expected {
        tally.difference(size(case), || lines::tree(case, expected, found));
    }
    if matches!(kind, Kind::Valid | Kind::Written) && expected.0 != 0 {
        tally.refused_valid += 1;
    }
    if expected.0 == 0 {
        count_rules(tally, case);
    }
    if expected.0 == 0 || found.0 == 0 {
        compare_meaning(tally, case, expected, found);
    }
}

/// Counts the rules of an accepted tree.
fn count_rules(tally: &mut Tally, case: &TreeCase) {
    let net = net::Net::decode(case.ask[10].into(), &case.net).expect("an accepted net");
    for record in case.tree.chunks_exact(NODE) {
        let node = Node::read(record.try_into().expect("a chunk is a record"));
        let optional = net.next(node.sequent.marking) & !net.pressed;
        tally.rule(node.rule, optional != 0);
    }
}

/// The bytes of all tables.
fn size(case: &TreeCase) -> usize {
    case.ask.len() + case.net.len() + case.formulas.len() + case.tree.len()
}

/// Whether an accepted tree's claim is true.
fn compare_meaning(tally: &mut Tally, case: &TreeCase, expected: (u32, u64), found: (u32, u64)) {
    let Ok(input) = Input::decode(&case.ask, &case.net, &case.formulas, &case.tree) else {
        return;
    };
    let ask = &input.ask;
    let Some(graph) = Graph::reachable(&input.net, ask.marking, MARKINGS) else {
        tally.unevaluated += 1;
        return;
    };
    let asked = usize::from(ask.formula);
    let truth = evaluate(&input.net, &graph, &input.formulas, asked);
    tally.evaluated += 1;
    if truth[asked][0] != (ask.side == HOLDS) {
        tally.contradiction(size(case), || lines::tree(case, expected, found));
    }
}

fn compare_labels(tally: &mut Tally, case: &LabelCase) {
    let expected = match category::check(&case.translation, &case.house) {
        Ok(()) => (0, 0),
        Err(refusal) => (refusal.number, refusal.record),
    };
    let found = archive::categories(&case.translation, &case.house);
    tally.label_pairs += 1;
    tally.answer(expected.0);
    tally.retired += u64::from(converted::retired(&case.translation, &case.house));
    let mut labels_differ = false;
    for &action in &case.actions {
        let label = category::label(&case.translation, &case.house, action);
        let expected = (label.file, label.offset, label.length);
        tally.labels += u64::from(label.length > 0);
        labels_differ |= expected != archive::label(&case.translation, &case.house, action);
    }
    if found != expected || labels_differ {
        let size = case.translation.len() + case.house.len();
        tally.difference(size, || lines::labels(case));
    }
}

fn compare_firing(tally: &mut Tally, case: &FiringCase) {
    let expected = firings::reference_firing(case);
    let found = firings::archive_firing(case);
    tally.firing(has_optional(&case.net), expected.0);
    tally.reasons(firings::reasons(case, expected));
    tally.answer(expected.0);
    let line = || lines::firing(case, expected, found);
    if found != expected {
        tally.difference(case.net.len(), line);
    }
    if !firings::sets_fit(found) {
        tally.unfit(case.net.len(), line);
    }
}

fn compare_write(tally: &mut Tally, case: &WriteCase) {
    let expected = drawings::reference_write(case);
    let found = drawings::archive_write(case);
    tally.write(expected.number(), has_optional(&case.net));
    if found != expected {
        tally.difference(case.net.len(), || lines::write(case, &expected, &found));
    }
}

fn compare_read(tally: &mut Tally, case: &ReadCase) {
    let expected = drawings::reference_read(case);
    let found = drawings::archive_read(case);
    tally.read(expected.number(), has_optional(expected.written()));
    if found != expected {
        tally.difference(case.text.len(), || lines::read(case, &expected, &found));
    }
}

fn compare_written(tally: &mut Tally, case: &WrittenCase) {
    let expected = written::reference_tree(case);
    let found = written::archive_tree(case);
    let (optional, until) = (has_optional(&case.net), has_until(&case.formulas));
    tally.written(expected.number(), optional, until);
    if found != expected {
        let size = case.net.len() + case.formulas.len() + case.room;
        tally.difference(size, || lines::written(case, &expected, &found));
    }
    if found.number() == 0 {
        let [claim, other] = written::claims(case, &found);
        compare_tree(tally, Kind::Written, &claim);
        compare_other(tally, &other);
    }
}

/// The tree of a claim must not be accepted for the other side.
fn compare_other(tally: &mut Tally, case: &TreeCase) {
    let found = archive::check(&case.ask, &case.net, &case.formulas, &case.tree);
    if found.0 == 0 {
        tally.contradiction(size(case), || lines::tree(case, (22, 0), found));
    }
}

fn compare_converted(tally: &mut Tally, case: &ConvertCase) {
    let expected = converted::reference_file(case);
    let found = converted::archive_file(case);
    tally.converted(expected.number(), has_borrower(&case.file));
    let line = || lines::converted(case, &expected, &found);
    if found != expected {
        tally.difference(case.file.len(), line);
    }
    if found.number() == 0 && !converted::serves(case, found.written()) {
        tally.unserved(case.file.len(), line);
    }
}

fn compare_joined(tally: &mut Tally, case: &JoinCase) {
    let expected = joined::reference_net(case);
    let found = joined::archive_net(case);
    tally.joined(expected.number(), joined::shown(case, expected.number()));
    let size = case.first.net.len() + case.second.net.len();
    let line = || lines::joined(case, &expected, &found);
    if found != expected {
        tally.difference(size, line);
    }
    if found.number() == 0 && !joined::as_in_the_halves(case, &found) {
        tally.unlike(size, line);
    }
}

fn compare_saved(tally: &mut Tally, case: &SaveCase) {
    let expected = saved::reference_tables(case);
    let found = saved::archive_tables(case);
    tally.saved(expected.number(), saved::shown(case, expected.number()));
    let size = size(&case.tables);
    let line = || lines::saved(case, &expected, &found);
    if found != expected {
        tally.difference(size, line);
    }
    if found.number() == 0 && !saved::stands(case, &found) {
        tally.unsaved(size, line);
    }
}
