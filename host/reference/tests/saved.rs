//! Room in the formula table: answers and bytes, and what the new tables are worth.

mod formulas;
mod tables;

use reference::Refusal;
use reference::check::{ASK, NODE, Verdict, check};
use reference::formula::{ALL, AND, FORMULA, NOT, SOME, STEP, TRUE};
use reference::rules::HOLDS;
use reference::saved::save;
use reference::written::write;

use formulas::{Row, formulas};
use tables::{NET_R, ask, table};

/// What rooms are filled with before a call.
const FILL: u8 = 0xA5;

/// The four tables of a tree.
#[derive(Clone, Debug, PartialEq, Eq)]
struct Tables {
    ask: Vec<u8>,
    net: Vec<u8>,
    formulas: Vec<u8>,
    tree: Vec<u8>,
}

/// The lengths of the ask, the formula table and the tree.
type Lengths = [usize; 3];

impl Tables {
    fn verdict(&self) -> Verdict {
        check(&self.ask, &self.net, &self.formulas, &self.tree)
    }

    fn all(&mut self) -> [&mut Vec<u8>; 4] {
        [
            &mut self.ask,
            &mut self.net,
            &mut self.formulas,
            &mut self.tree,
        ]
    }

    fn lengths(&self) -> Lengths {
        [self.ask.len(), self.formulas.len(), self.tree.len()]
    }

    /// The number of formula records and the new tables, in rooms of these lengths. What
    /// is not written must be as it was.
    fn saved_in(&self, lengths: Lengths) -> Result<(u64, Tables), Refusal> {
        let mut rooms = lengths.map(|length| vec![FILL; length]);
        let lent = rooms.each_mut().map(|room| &mut room[..]);
        let answer = save(&self.ask, &self.net, &self.formulas, &self.tree, lent);
        let written = answer.map_or([0; 3], |left| {
            [ASK, left as usize * FORMULA, self.tree.len()]
        });
        for (room, written) in rooms.iter_mut().zip(written) {
            let rest = room.split_off(written);
            assert!(rest.iter().all(|&b| b == FILL));
        }
        let [ask, formulas, tree] = rooms;
        let net = self.net.clone();
        let new = Tables {
            ask,
            net,
            formulas,
            tree,
        };
        answer.map(|left| (left, new))
    }

    /// The new tables in exact rooms. They are the same in longer rooms, refused in shorter
    /// ones, accepted, and the same once more.
    fn saved(&self) -> Tables {
        let (left, new) = self.saved_in(self.lengths()).expect("an accepted tree");
        let exact = new.lengths();
        assert_eq!(left as usize * FORMULA, exact[1]);
        let answer = Ok((left, new.clone()));
        for more in [0, 1, NODE, 1000] {
            assert_eq!(self.saved_in(exact.map(|length| length + more)), answer);
        }
        for room in 0..3 {
            for less in [1, 2, exact[room]] {
                self.short(exact, room, exact[room] - less.min(exact[room]));
            }
        }
        assert_eq!(self.saved_in([0; 3]), refused(12, 0));
        assert_eq!(new.verdict(), self.verdict());
        assert_eq!(new.saved_in(exact), answer);
        new
    }

    /// Sees that one room of this length is too short, the others exact or longer.
    fn short(&self, exact: Lengths, room: usize, length: usize) {
        for more in [0, 1000] {
            let mut lengths = exact.map(|length| length + more);
            lengths[room] = length;
            assert_eq!(self.saved_in(lengths), refused(12, 0));
        }
    }

    /// Sees that the call gives the check's own answer, with rooms enough and without.
    fn refuses(&self, number: u32, place: u64) {
        assert_eq!(self.verdict().numbers(), (number, place));
        for rooms in [[0; 3], [1; 3], self.lengths(), [5000; 3]] {
            assert_eq!(self.saved_in(rooms), refused(number, place));
        }
    }

    /// The same with one byte of a table changed.
    fn changed(&self, pick: impl Fn(&mut Tables) -> &mut u8, value: u8) -> Tables {
        let mut tables = self.clone();
        *pick(&mut tables) = value;
        tables
    }
}

fn refused<T>(number: u32, record: u64) -> Result<T, Refusal> {
    Err(Refusal { number, record })
}

/// The tables of "R holds 2", with the tree of 23 nodes.
fn tables_r() -> Tables {
    let read = |name: &str| {
        let path = format!("{}/../../examples/r/{name}", env!("CARGO_MANIFEST_DIR"));
        std::fs::read(path).expect("the sample's tables are readable")
    };
    let [ask, net, formulas, tree] = ["ASK", "NET", "FORMULA", "TREE"].map(read);
    Tables {
        ask,
        net,
        formulas,
        tree,
    }
}

/// The same with this formula table, in which record k of R's has the number `numbers[k]`.
fn r_with(rows: &[Row], numbers: [u16; 3]) -> Tables {
    let mut tables = tables_r();
    let fields = tables
        .tree
        .chunks_exact_mut(NODE)
        .map(|node| &mut node[32..34]);
    for field in fields.chain([&mut tables.ask[8..10]]) {
        let number = numbers[usize::from(field[0])];
        field.copy_from_slice(&number.to_le_bytes());
    }
    tables.formulas = formulas(rows);
    tables
}

/// The tables of a claim about R at marking 3 whose formula has no "until".
fn claim(rows: &[Row], formula: u16) -> Tables {
    let (mut ask, net, formulas) = (ask(3, formula, 3, HOLDS), table(&NET_R), formulas(rows));
    let mut tree = vec![0; 1000 * NODE];
    let written = write(&ask, &net, &formulas, &mut tree).expect("no until");
    ask[11] = written.side;
    tree.truncate(written.nodes as usize * NODE);
    Tables {
        ask,
        net,
        formulas,
        tree,
    }
}

#[test]
fn r_with_dead_records() {
    let r = tables_r();
    assert_eq!(r.verdict(), Verdict::Accepted { nodes: 23 });
    // Before.
    let rows = [
        (TRUE, 0, 0, 0),
        (NOT, 0, 0, 0),
        (TRUE, 0, 0, 0),
        (STEP, 2, 0, 3),
        (ALL, 2, 3, 0),
    ];
    assert_eq!(r_with(&rows, [2, 3, 4]).saved(), r);
    // Between.
    let rows = [
        (TRUE, 0, 0, 0),
        (STEP, 0, 0, 2),
        (STEP, 0, 0, 3),
        (AND, 1, 2, 0),
        (SOME, 3, 2, 0),
        (ALL, 0, 2, 0),
    ];
    assert_eq!(r_with(&rows, [0, 2, 5]).saved(), r);
    // Behind.
    let rows = [
        (TRUE, 0, 0, 0),
        (STEP, 0, 0, 3),
        (ALL, 0, 1, 0),
        (NOT, 2, 0, 0),
        (ALL, 2, 3, 0),
        (STEP, 1, 0, 4),
    ];
    assert_eq!(r_with(&rows, [0, 1, 2]).saved(), r);
    // All three.
    let rows = [
        (TRUE, 0, 0, 0),
        (TRUE, 0, 0, 0),
        (NOT, 1, 0, 0),
        (STEP, 1, 0, 3),
        (AND, 2, 3, 0),
        (ALL, 1, 3, 0),
        (SOME, 5, 4, 0),
        (NOT, 5, 0, 0),
    ];
    assert_eq!(r_with(&rows, [1, 3, 5]).saved(), r);
}

#[test]
fn all_reached_already() {
    let r = tables_r();
    assert_eq!(r.saved(), r);
    // 255 times "not".
    let nots: Vec<Row> = (0..255).map(|k| (NOT, k, 0, 0)).collect();
    let chain = claim(&[&[(TRUE, 0, 0, 0)], &nots[..]].concat(), 255);
    assert_eq!(chain.saved(), chain);
    let one = claim(&[(TRUE, 0, 0, 0)], 0);
    assert_eq!(one.saved(), one);
}

#[test]
fn one_of_256_reached() {
    let one = claim(&[(TRUE, 0, 0, 0)], 0);
    for asked in [0, 1, 100, 254, 255] {
        let row = |k: u16| match k == 0 || k == asked {
            true => (TRUE, 0, 0, 0),
            false => (AND, k - 1, k / 2, 0),
        };
        let rows: Vec<Row> = (0..256).map(row).collect();
        assert_eq!(claim(&rows, asked).saved(), one);
    }
}

/// Every second of 256 records, each the "not" of the second before it.
#[test]
fn half_of_256_reached() {
    let nots: Vec<Row> = (0..127).map(|k| (NOT, k, 0, 0)).collect();
    let half = claim(&[&[(TRUE, 0, 0, 0)], &nots[..]].concat(), 127);
    let row = |first: u16| {
        move |k: u16| match k < 2 {
            true => (TRUE, 0, 0, 0),
            false if k % 2 == first => (NOT, k - 2, 0, 0),
            false => (AND, k - 1, k - 2, 0),
        }
    };
    for first in [0, 1] {
        let rows: Vec<Row> = (0..256).map(row(first)).collect();
        assert_eq!(claim(&rows, 254 + first).saved(), half);
    }
}

/// Fields that an operator lacks stay zero though record 0 is dead, and actions stay
/// though they are numbers of records.
#[test]
fn what_is_no_operand_stays() {
    let rows = [
        (TRUE, 0, 0, 0),
        (NOT, 0, 0, 0),
        (TRUE, 0, 0, 0),
        (STEP, 2, 0, 5),
        (NOT, 3, 0, 0),
        (STEP, 4, 0, 2),
        (AND, 5, 2, 0),
        (NOT, 6, 0, 0),
    ];
    let left = [
        (TRUE, 0, 0, 0),
        (STEP, 0, 0, 5),
        (NOT, 1, 0, 0),
        (STEP, 2, 0, 2),
        (AND, 3, 0, 0),
        (NOT, 4, 0, 0),
    ];
    assert_eq!(claim(&rows, 7).saved(), claim(&left, 5));
    assert_eq!(claim(&rows, 6).saved(), claim(&left[..5], 4));
    assert_eq!(claim(&rows, 1).saved(), claim(&[rows[0], rows[1]], 1));
}

/// An operand that is reached in two ways, by both fields of a record and from two records.
#[test]
fn reached_in_two_ways() {
    let rows = [
        (TRUE, 0, 0, 0),
        (TRUE, 0, 0, 0),
        (AND, 1, 1, 0),
        (AND, 1, 2, 0),
        (AND, 2, 1, 0),
        (AND, 4, 2, 0),
    ];
    let left = [
        (TRUE, 0, 0, 0),
        (AND, 0, 0, 0),
        (AND, 1, 0, 0),
        (AND, 2, 1, 0),
    ];
    assert_eq!(claim(&rows, 5).saved(), claim(&left, 3));
}

#[test]
fn refused_tables() {
    let r = tables_r();
    r.changed(|t| &mut t.ask[11], 2).refuses(1, 0);
    r.changed(|t| &mut t.ask[10], 65).refuses(1, 0);
    r.changed(|t| &mut t.ask[10], 2).refuses(3, 1);
    r.changed(|t| &mut t.net[48 + 18], 2).refuses(3, 2);
    r.changed(|t| &mut t.formulas[16], 6).refuses(5, 2);
    r.changed(|t| &mut t.formulas[8 + 4], 1).refuses(5, 1);
    r.changed(|t| &mut t.ask[0], 11).refuses(7, 0);
    r.changed(|t| &mut t.ask[8], 3).refuses(7, 0);
    for (table, number) in [(0, 1), (1, 2), (2, 4), (3, 6)] {
        for less in [true, false] {
            let mut tables = r.clone();
            resize(tables.all()[table], less);
            tables.refuses(number, 0);
        }
    }
    // A dead record is checked too.
    let rows = [
        (TRUE, 0, 0, 0),
        (STEP, 0, 0, 3),
        (ALL, 0, 1, 0),
        (NOT, 3, 0, 0),
    ];
    r_with(&rows, [0, 1, 2]).refuses(5, 3);
    let many = [&[(TRUE, 0, 0, 0); 254][..], &rows[..3]].concat();
    r_with(&many, [254, 255, 256]).refuses(4, 0);
}

/// Takes the last byte, or adds one.
fn resize(table: &mut Vec<u8>, less: bool) {
    match less {
        true => drop(table.pop()),
        false => table.push(0),
    }
}

#[test]
fn broken_trees() {
    let rows = [
        (TRUE, 0, 0, 0),
        (TRUE, 0, 0, 0),
        (STEP, 1, 0, 3),
        (ALL, 1, 2, 0),
        (NOT, 3, 0, 0),
    ];
    let r = r_with(&rows, [1, 2, 3]);
    assert_eq!(r.saved(), tables_r());
    let broken = |node: usize, at: usize, value: u8, number: u32, place: u64| {
        let tables = r.changed(|t| &mut t.tree[node * NODE + at], value);
        tables.refuses(number, place);
    };
    broken(0, 24, 1, 20, 0);
    broken(22, 28, 1, 20, 22);
    broken(0, 37, 5, 21, 0);
    broken(0, 32, 5, 21, 0);
    broken(0, 36, 1, 22, 0);
    broken(0, 32, 4, 22, 0);
    broken(21, 35, 1, 23, 21);
    broken(2, 35, 5, 24, 2);
    broken(0, 35, 5, 25, 0);
    // The record of the same formula that is dead.
    broken(22, 32, 0, 26, 20);
}

/// A formula as text, all the way down.
fn unfolded(rows: &[Row], number: u16) -> String {
    let (operator, left, right, action) = rows[usize::from(number)];
    let below = |number: u16| unfolded(rows, number);
    match operator {
        NOT => format!("not {}", below(left)),
        STEP => format!("{action} {}", below(left)),
        AND => format!("({} and {})", below(left), below(right)),
        _ => "true".to_owned(),
    }
}

/// All records that can stand at a number, with operators 0 to 3 and two actions.
fn all_rows(number: u16) -> Vec<Row> {
    let mut rows = vec![(TRUE, 0, 0, 0)];
    for left in 0..number {
        rows.extend([(NOT, left, 0, 0), (STEP, left, 0, 1), (STEP, left, 0, 2)]);
        rows.extend((0..number).map(|right| (AND, left, right, 0)));
    }
    rows
}

/// All tables of so many records.
fn all_tables(count: u16) -> Vec<Vec<Row>> {
    (0..count).fold(vec![Vec::new()], |tables, number| {
        let longer = |table: &Vec<Row>| {
            let table = table.clone();
            let rows = all_rows(number).into_iter();
            rows.map(move |row| [&table[..], &[row]].concat())
                .collect::<Vec<_>>()
        };
        tables.iter().flat_map(longer).collect()
    })
}

/// The records that an asked one reaches, found by going down from it without a memory.
fn reaches(rows: &[Row], asked: u16, number: u16) -> bool {
    let (operator, left, right, _) = rows[usize::from(asked)];
    let below = |operand: u16| reaches(rows, operand, number);
    asked == number
        || match operator {
            TRUE => false,
            AND => below(left) || below(right),
            _ => below(left),
        }
}

/// Each table of four records, each record asked: what is left are the records reached,
/// in the old order, and the formula is the same all the way down.
#[test]
fn every_small_table() {
    let mut cases = 0;
    for rows in all_tables(4) {
        for asked in 0..4 {
            let before = claim(&rows, asked);
            let after = before.saved();
            let kept: Vec<u16> = (0..4).filter(|&n| reaches(&rows, asked, n)).collect();
            let left = decoded(&after.formulas);
            assert_eq!(left.len(), kept.len());
            for (new, &old) in kept.iter().enumerate() {
                assert_eq!(unfolded(&left, new as u16), unfolded(&rows, old));
            }
            assert_eq!(usize::from(after.ask[8]) + 1, kept.len());
            cases += 1;
        }
    }
    assert_eq!(cases, 5 * 11 * 19 * 4);
}

/// The rows of a formula table.
fn decoded(formulas: &[u8]) -> Vec<Row> {
    let two = |record: &[u8], at: usize| u16::from_le_bytes([record[at], record[at + 1]]);
    let row = |record: &[u8]| (record[0], two(record, 2), two(record, 4), two(record, 6));
    formulas.chunks_exact(FORMULA).map(row).collect()
}
