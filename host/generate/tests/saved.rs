//! Generated tables on the part that saves room: the answer is the one that document 02
//! says, the new tables are right record by record, accepted, and mean the same.

use std::collections::{BTreeMap, BTreeSet};

use generate::cases::TreeCase;
use generate::prng::Prng;
use generate::saved::{SaveCase, save_case, spread};
use reference::Refusal;
use reference::check::{ASK, Input, NODE, Verdict, check};
use reference::formula::{FORMULA, Formula, decode};
use reference::meaning::{Graph, evaluate};
use reference::saved::save;

const CASES: usize = 30_000;
/// The most markings of a graph on which the meaning is evaluated.
const MARKINGS: usize = 3000;

fn verdict(tables: &TreeCase) -> Verdict {
    check(&tables.ask, &tables.net, &tables.formulas, &tables.tree)
}

/// What document 02 says of a record's operands, by the operator.
fn operands(formula: &Formula) -> Vec<u16> {
    match formula.operator {
        0 => vec![],
        1 | 3 => vec![formula.left],
        _ => vec![formula.left, formula.right],
    }
}

/// The least set that has the asked record and the operands of each of its own.
fn reached(formulas: &[Formula], asked: u16) -> BTreeSet<u16> {
    let mut set = BTreeSet::from([asked]);
    loop {
        let named = set
            .iter()
            .flat_map(|&n| operands(&formulas[usize::from(n)]));
        let larger: BTreeSet<u16> = named.chain(set.iter().copied()).collect();
        if larger == set {
            return set;
        }
        set = larger;
    }
}

/// The asked record of good tables.
fn asked(tables: &TreeCase) -> u16 {
    u16::from_le_bytes([tables.ask[8], tables.ask[9]])
}

fn good_formulas(tables: &TreeCase) -> Vec<Formula> {
    decode(&tables.formulas).expect("a good formula table")
}

/// The refusal of a case, and the records that are left.
fn expected(case: &SaveCase) -> Result<BTreeSet<u16>, Refusal> {
    let (number, record) = match verdict(&case.tables) {
        Verdict::Accepted { .. } => (0, 0),
        other => other.numbers(),
    };
    if number != 0 {
        return Err(Refusal { number, record });
    }
    let left = reached(&good_formulas(&case.tables), asked(&case.tables));
    let lengths = [ASK, left.len() * FORMULA, case.tables.tree.len()];
    let fits = (0..3).all(|i| lengths[i] <= case.rooms[i]);
    let short = Refusal {
        number: 12,
        record: 0,
    };
    fits.then_some(left).ok_or(short)
}

/// The answer in rooms of these lengths, and the new tables. What is not written must be
/// as it was.
fn saved_in(tables: &TreeCase, rooms: [usize; 3], fill: u8) -> Result<TreeCase, Refusal> {
    let mut rooms = rooms.map(|length| vec![fill; length]);
    let lent = rooms.each_mut().map(|room| &mut room[..]);
    let answer = save(
        &tables.ask,
        &tables.net,
        &tables.formulas,
        &tables.tree,
        lent,
    );
    let lengths = answer.map_or([0; 3], |left| {
        [ASK, left as usize * FORMULA, tables.tree.len()]
    });
    for (room, length) in rooms.iter_mut().zip(lengths) {
        let rest = room.split_off(length);
        assert!(rest.iter().all(|&b| b == fill));
    }
    let [ask, formulas, tree] = rooms;
    answer.map(|_| TreeCase {
        ask,
        net: tables.net.clone(),
        formulas,
        tree,
    })
}

/// Sees that two tables of records are the same but for the number of a formula in each,
/// which is the new one of the old.
fn renumbered(before: &[u8], after: &[u8], size: usize, at: usize, new: &BTreeMap<u16, u16>) {
    assert_eq!(before.len(), after.len());
    for (before, after) in before.chunks(size).zip(after.chunks(size)) {
        let number = |record: &[u8]| u16::from_le_bytes([record[at], record[at + 1]]);
        assert_eq!(new[&number(before)], number(after));
        assert_eq!(before[..at], after[..at]);
        assert_eq!(before[at + 2..], after[at + 2..]);
    }
}

/// Sees that the new tables have the records left, in the old order, with new numbers.
fn records_stand(before: &TreeCase, after: &TreeCase, left: &BTreeSet<u16>) {
    let new: BTreeMap<u16, u16> = left.iter().copied().zip(0..).collect();
    renumbered(&before.ask, &after.ask, ASK, 8, &new);
    renumbered(&before.tree, &after.tree, NODE, 32, &new);
    let (old, formulas) = (good_formulas(before), good_formulas(after));
    assert_eq!(formulas.len(), left.len());
    for (&number, after) in left.iter().zip(&formulas) {
        let before = &old[usize::from(number)];
        assert_eq!(
            (before.operator, before.action),
            (after.operator, after.action)
        );
        let moved: Vec<u16> = operands(before).iter().map(|n| new[n]).collect();
        assert_eq!(operands(after), moved);
    }
}

/// Sees that the new tables are accepted with as many nodes, that each of their records is
/// reached, and that they do not change once more.
fn worth(before: &TreeCase, after: &TreeCase) {
    assert_eq!(verdict(after), verdict(before));
    let formulas = good_formulas(after);
    assert_eq!(reached(&formulas, asked(after)).len(), formulas.len());
    let lengths = [after.ask.len(), after.formulas.len(), after.tree.len()];
    assert_eq!(saved_in(after, lengths, 0).as_ref(), Ok(after));
}

/// Where the asked formula holds on the graph of reachable markings, if that is small.
fn meaning(tables: &TreeCase) -> Option<Vec<bool>> {
    let input = Input::without_tree(&tables.ask, &tables.net, &tables.formulas);
    let input = input.expect("good inputs");
    let graph = Graph::reachable(&input.net, input.ask.marking, MARKINGS)?;
    let asked = usize::from(input.ask.formula);
    evaluate(&input.net, &graph, &input.formulas, asked).pop()
}

/// What a case shows, with its number.
fn shown(case: &SaveCase, answer: &Result<BTreeSet<u16>, Refusal>) -> Vec<String> {
    let left = match answer {
        Err(refusal) => return vec![format!("answer {}", refusal.number)],
        Ok(left) => left,
    };
    let count = (case.tables.formulas.len() / FORMULA) as u16;
    let (first, last) = (left.first().copied(), asked(&case.tables));
    let between = left.len() as u16 != last + 1 - first.unwrap_or(last);
    let names = [
        (first > Some(0), "before"),
        (between, "between"),
        (last + 1 < count, "behind"),
        (left.len() == usize::from(count), "nothing dead"),
        (count == 256, "256 records"),
    ];
    let names = names.into_iter().filter(|(shown, _)| *shown);
    let names = names.map(|(_, name)| name.to_owned());
    names.chain(["answer 0".to_owned()]).collect()
}

#[test]
fn tables() {
    let mut rng = Prng::new(1);
    let mut counts = BTreeMap::<String, usize>::new();
    for _ in 0..CASES {
        let case = save_case(&mut rng);
        let fill = rng.number() as u8;
        let expected = expected(&case);
        let answer = saved_in(&case.tables, case.rooms, fill);
        assert_eq!(answer.as_ref().err(), expected.as_ref().err());
        for name in shown(&case, &expected) {
            *counts.entry(name).or_default() += 1;
        }
        if let (Ok(after), Ok(left)) = (answer, expected) {
            records_stand(&case.tables, &after, &left);
            worth(&case.tables, &after);
            assert_eq!(meaning(&case.tables), meaning(&after));
        }
    }
    println!("{counts:?}");
    // 16 answers and five kinds of granted ones.
    assert_eq!(counts.len(), 21);
    assert!(counts.values().all(|&count| count > CASES / 1000));
}

/// Records that are spread over a longer table leave a tree accepted.
#[test]
fn spread_tables() {
    let mut rng = Prng::new(2);
    for size in 3..=256 {
        let mut tables = generate::families::r_holds();
        spread(&mut rng, &mut tables, size);
        assert_eq!(verdict(&tables), Verdict::Accepted { nodes: 23 });
        let saved = saved_in(&tables, [ASK, 3 * FORMULA, 23 * NODE], 0);
        assert_eq!(saved, Ok(generate::families::r_holds()));
    }
}

#[test]
fn the_same_cases_for_a_seed() {
    let cases = |seed: u64| -> Vec<SaveCase> {
        let mut rng = Prng::new(seed);
        (0..100).map(|_| save_case(&mut rng)).collect()
    };
    assert_eq!(cases(3), cases(3));
    assert_ne!(cases(3), cases(4));
}
