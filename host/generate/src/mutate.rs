//! Changes to the tables of a case.

use reference::check::NODE;
use reference::formula::FORMULA;
use reference::net::{MARK, TRANSITION};
use reference::rules::{RULES, used_for};

use crate::cases::TreeCase;
use crate::prng::Prng;

/// A field of a record: its offset and size.
type Field = (usize, usize);

const MARKING: Field = (0, 8);
const ANCHOR: Field = (8, 8);
const KEPT: Field = (16, 8);
const PARENT: Field = (24, 4);
const FIRST: Field = (28, 4);
const OF_FORMULA: Field = (32, 2);
const CHILDREN: Field = (34, 1);
const RULE: Field = (35, 1);
const SIDE: Field = (36, 1);
const PHASE: Field = (37, 1);
const ROUND: Field = (38, 1);
const CHOSEN: Field = (39, 1);

const NODE_FIELDS: [Field; 12] = [
    MARKING, ANCHOR, KEPT, PARENT, FIRST, OF_FORMULA, CHILDREN, RULE, SIDE, PHASE, ROUND, CHOSEN,
];
const ASK_FIELDS: [Field; 4] = [(0, 8), (8, 2), (10, 1), (11, 1)];
const TRANSITION_FIELDS: [Field; 5] = [(0, 8), (8, 8), (16, 2), (MARK, 1), (MARK + 1, 5)];
const FORMULA_FIELDS: [Field; 5] = [(0, 1), (1, 1), (2, 2), (4, 2), (6, 2)];

/// Changes a case in one to three ways.
pub fn mutate(rng: &mut Prng, case: &mut TreeCase) {
    for _ in 0..rng.pick(&[1, 1, 1, 1, 1, 1, 2, 2, 3]) {
        mutate_once(rng, case);
    }
}

fn mutate_once(rng: &mut Prng, case: &mut TreeCase) {
    match rng.below(28) {
        0 => flip(rng, case),
        1 => resize(rng, case),
        2 => change_field(rng, &mut case.ask, 12, &ASK_FIELDS),
        3 => change_field(rng, &mut case.net, TRANSITION, &TRANSITION_FIELDS),
        4 => change_field(rng, &mut case.formulas, FORMULA, &FORMULA_FIELDS),
        5..=9 => change_field(rng, &mut case.tree, NODE, &NODE_FIELDS),
        10..=12 => change_rule(rng, case),
        13 => change_anchored(rng, case),
        14 => swap_sides(rng, case),
        15 => change_root_and_ask(rng, case),
        16 => swap_nodes(rng, case),
        17 => duplicate_or_drop(rng, case),
        18 => swap_siblings(rng, case),
        19..=20 => change_links(rng, case),
        21 => drop_child(rng, case),
        22 => change_one_set(rng, case),
        23 => change_root(rng, case),
        24 => root_in_phase(rng, case),
        25 | 26 => change_mark(rng, &mut case.net),
        _ => change_table_size(rng, case),
    }
}

fn get(table: &[u8], at: usize, size: usize) -> u64 {
    let mut bytes = [0; 8];
    bytes[..size].copy_from_slice(&table[at..at + size]);
    u64::from_le_bytes(bytes)
}

fn put(table: &mut [u8], at: usize, size: usize, value: u64) {
    table[at..at + size].copy_from_slice(&value.to_le_bytes()[..size]);
}

fn count(case: &TreeCase) -> usize {
    case.tree.len() / NODE
}

fn read(case: &TreeCase, k: usize, field: Field) -> u64 {
    get(&case.tree, k * NODE + field.0, field.1)
}

fn write(case: &mut TreeCase, k: usize, field: Field, value: u64) {
    put(&mut case.tree, k * NODE + field.0, field.1, value);
}

fn tables(case: &mut TreeCase) -> [&mut Vec<u8>; 4] {
    [
        &mut case.ask,
        &mut case.net,
        &mut case.formulas,
        &mut case.tree,
    ]
}

/// One bit or byte of any table.
fn flip(rng: &mut Prng, case: &mut TreeCase) {
    let table = &mut *tables(case)[rng.below(4)];
    if table.is_empty() {
        return;
    }
    let at = rng.below(table.len());
    match rng.percent(60) {
        true => table[at] ^= 1 << rng.below(8),
        false => table[at] = rng.number() as u8,
    }
}

/// A table cut short or made longer.
fn resize(rng: &mut Prng, case: &mut TreeCase) {
    let which = rng.below(4);
    let size = [12, TRANSITION, FORMULA, NODE][which];
    let table = &mut *tables(case)[which];
    let length = table.len();
    let length = match rng.below(7) {
        0 => 0,
        1 => rng.below(length + 1),
        2 => length.saturating_sub(1),
        3 => length + 1,
        4 => length.saturating_sub(size),
        5 => length + size,
        _ => length + rng.below(size),
    };
    let fill = rng.pick(&[0, 0, 1, 255]);
    table.resize(length, fill);
}

/// A number of records around the limit.
fn change_table_size(rng: &mut Prng, case: &mut TreeCase) {
    let (table, size, records) = match rng.percent(50) {
        true => (&mut case.net, TRANSITION, rng.pick(&[0, 1, 63, 64, 65, 66])),
        false => (
            &mut case.formulas,
            FORMULA,
            rng.pick(&[0, 1, 255, 256, 257]),
        ),
    };
    let extra = if rng.percent(20) { rng.below(size) } else { 0 };
    table.resize(records * size + extra, 0);
}

/// One field of one record: a near value, one of another record, or an edge.
fn change_field(rng: &mut Prng, table: &mut [u8], record: usize, fields: &[Field]) {
    let count = table.len() / record;
    if count == 0 {
        return;
    }
    let (offset, size) = rng.pick(fields);
    let at = rng.below(count) * record + offset;
    let old = get(table, at, size);
    let other = get(table, rng.below(count) * record + offset, size);
    let value = match rng.below(7) {
        0 => old.wrapping_add(1),
        1 => old.wrapping_sub(1),
        2 => other,
        3 => old ^ 1 << rng.below(size * 8),
        4 => 0,
        5 => rng.below(70) as u64,
        _ => rng.edge(),
    };
    put(table, at, size, value);
}

/// One field of the root.
fn change_root(rng: &mut Prng, case: &mut TreeCase) {
    if count(case) > 0 {
        change_field(rng, &mut case.tree[..NODE], NODE, &NODE_FIELDS);
    }
}

/// The root in another phase, with fields at the edge of their ranges.
fn root_in_phase(rng: &mut Prng, case: &mut TreeCase) {
    if count(case) == 0 || case.ask.len() != 12 {
        return;
    }
    let places = u32::from(case.ask[10]).clamp(1, 64);
    let transitions = (case.net.len() / TRANSITION).clamp(1, 64) as u32;
    let near = |rng: &mut Prng, size: u32| match rng.below(3) {
        0 => 1u64.checked_shl(size).unwrap_or(0),
        1 => 1 << (size - 1),
        _ => 0,
    };
    let anchor = near(rng, places);
    let kept = near(rng, transitions);
    write(case, 0, PHASE, rng.below(6) as u64);
    write(case, 0, ANCHOR, anchor);
    write(case, 0, KEPT, kept);
    write(case, 0, ROUND, rng.pick(&[0, 0, 0, 1, 63, 64, 65, 255]));
}

/// Another rule for the same side, operator and phase, or any number.
fn change_rule(rng: &mut Prng, case: &mut TreeCase) {
    let k = rng.below(count(case).max(1));
    if k >= count(case) {
        return;
    }
    let formula = read(case, k, OF_FORMULA) as usize;
    let operator = case.formulas.get(formula * FORMULA).copied().unwrap_or(0);
    let side = read(case, k, SIDE) as u8;
    let phase = read(case, k, PHASE) as u8;
    let fitting: Vec<u8> = RULES
        .into_iter()
        .filter(|&rule| used_for(rule) == Some((side, operator, phase)))
        .collect();
    let rule = match fitting.is_empty() || rng.percent(25) {
        true => rng.below(36) as u8,
        false => rng.pick(&fitting),
    };
    write(case, k, RULE, u64::from(rule));
}

/// Kept, anchor or round of a node in phases 1 to 4.
fn change_anchored(rng: &mut Prng, case: &mut TreeCase) {
    let anchored: Vec<usize> = (0..count(case))
        .filter(|&k| read(case, k, PHASE) != 0)
        .collect();
    if anchored.is_empty() {
        return;
    }
    let k = rng.pick(&anchored);
    let transitions = (case.net.len() / TRANSITION).clamp(1, 64);
    match rng.below(5) {
        0 => {
            let kept = read(case, k, KEPT) ^ 1 << rng.below(transitions);
            write(case, k, KEPT, kept);
        }
        1 => write(case, k, KEPT, 0),
        2 => {
            let anchor = read(case, rng.below(count(case)), MARKING);
            write(case, k, ANCHOR, anchor);
        }
        3 => {
            let round = read(case, k, ROUND).wrapping_sub(1);
            write(case, k, ROUND, round);
        }
        _ => {
            let round = read(case, k, ROUND) + 1;
            write(case, k, ROUND, round);
        }
    }
}

/// The side of the ask, of the root, or of every node.
fn swap_sides(rng: &mut Prng, case: &mut TreeCase) {
    let which = rng.below(3);
    if which != 1 && case.ask.len() == 12 {
        case.ask[11] ^= 1;
    }
    let nodes = match which {
        0 => 0,
        1 => count(case).min(1),
        _ => count(case),
    };
    for k in 0..nodes {
        let side = read(case, k, SIDE) ^ 1;
        write(case, k, SIDE, side);
    }
}

/// The marking or formula of the root together with that of the ask.
fn change_root_and_ask(rng: &mut Prng, case: &mut TreeCase) {
    if case.ask.len() != 12 || count(case) == 0 {
        return;
    }
    let other = rng.below(count(case));
    if rng.percent(50) {
        let marking = match rng.percent(50) {
            true => read(case, other, MARKING),
            false => {
                read(case, 0, MARKING) ^ 1 << rng.below(usize::from(case.ask[10]).clamp(1, 64))
            }
        };
        write(case, 0, MARKING, marking);
        put(&mut case.ask, 0, 8, marking);
    } else {
        let formula = read(case, other, OF_FORMULA);
        write(case, 0, OF_FORMULA, formula);
        put(&mut case.ask, 8, 2, formula);
    }
}

fn swap_nodes(rng: &mut Prng, case: &mut TreeCase) {
    if count(case) > 1 {
        let (a, b) = (rng.below(count(case)), rng.below(count(case)));
        swap_records(&mut case.tree, a, b);
    }
}

fn swap_records(tree: &mut [u8], a: usize, b: usize) {
    for i in 0..NODE {
        tree.swap(a * NODE + i, b * NODE + i);
    }
}

fn duplicate_or_drop(rng: &mut Prng, case: &mut TreeCase) {
    if count(case) == 0 {
        return;
    }
    let k = rng.below(count(case));
    let record: Vec<u8> = case.tree[k * NODE..(k + 1) * NODE].to_vec();
    match rng.below(3) {
        0 => case.tree.extend(record),
        1 => drop(case.tree.splice(k * NODE..k * NODE, record)),
        _ => drop(case.tree.drain(k * NODE..(k + 1) * NODE)),
    }
}

/// Two children of a node change places, with the links put right.
fn swap_siblings(rng: &mut Prng, case: &mut TreeCase) {
    let wide: Vec<usize> = (0..count(case))
        .filter(|&k| children_inside(case, k) > 1)
        .collect();
    if wide.is_empty() {
        return;
    }
    let k = rng.pick(&wide);
    let first = read(case, k, FIRST) as usize;
    let children = read(case, k, CHILDREN) as usize;
    let a = first + rng.below(children);
    let b = first + rng.below(children);
    swap_records(&mut case.tree, a, b);
    for moved in [a, b] {
        let first = read(case, moved, FIRST) as usize;
        for child in first..first + children_inside(case, moved) {
            write(case, child, PARENT, moved as u64);
        }
    }
}

/// The number of children of a node if they stand inside the table, else 0.
fn children_inside(case: &TreeCase, k: usize) -> usize {
    let first = read(case, k, FIRST) as usize;
    let children = read(case, k, CHILDREN) as usize;
    match first + children <= count(case) {
        true => children,
        false => 0,
    }
}

/// Parent, first child or number of children, with values that are nearly
/// right, or that wrap round.
fn change_links(rng: &mut Prng, case: &mut TreeCase) {
    if count(case) == 0 {
        return;
    }
    let k = rng.below(count(case));
    let children = read(case, k, CHILDREN);
    match rng.below(9) {
        0 => write(case, k, PARENT, rng.below(count(case)) as u64),
        1 => write(case, k, PARENT, k as u64),
        2 => write(case, k, FIRST, (1 << 32) - children),
        3 => write(case, k, FIRST, k as u64),
        4 => {
            write(case, k, FIRST, count(case) as u64);
            write(case, k, CHILDREN, children.max(1));
        }
        5 => {
            let first = read(case, k, FIRST);
            let first = first.wrapping_add(rng.pick(&[1, u64::MAX]));
            write(case, k, FIRST, first);
        }
        6 => {
            write(case, k, CHILDREN, 0);
            if rng.percent(50) {
                write(case, k, FIRST, 0);
            }
        }
        7 => share_children(rng, case, k),
        _ => orphan(rng, case),
    }
}

/// A leaf counts the children of another node among its own.
fn share_children(rng: &mut Prng, case: &mut TreeCase, k: usize) {
    let other = rng.below(count(case));
    let (first, children) = (read(case, other, FIRST), read(case, other, CHILDREN));
    write(case, k, FIRST, first);
    write(case, k, CHILDREN, children);
    if rng.percent(50) {
        for child in first as usize..first as usize + children_inside(case, other) {
            write(case, child, PARENT, k as u64);
        }
    }
}

/// A record at the end that names a parent which does not count it.
fn orphan(rng: &mut Prng, case: &mut TreeCase) {
    let parent = rng.below(count(case));
    let k = count(case);
    let record: Vec<u8> = case.tree[parent * NODE..(parent + 1) * NODE].to_vec();
    case.tree.extend(record);
    write(case, k, PARENT, parent as u64);
    write(case, k, FIRST, 0);
    write(case, k, CHILDREN, 0);
}

/// The last record leaves the table and its parent counts one child fewer.
fn drop_child(rng: &mut Prng, case: &mut TreeCase) {
    let last = count(case).saturating_sub(1);
    if last == 0 {
        return;
    }
    let parent = read(case, last, PARENT) as usize;
    if parent >= last {
        return;
    }
    let children = read(case, parent, CHILDREN).saturating_sub(1);
    write(case, parent, CHILDREN, children);
    if children == 0 && rng.percent(80) {
        write(case, parent, FIRST, 0);
    }
    case.tree.truncate(last * NODE);
}

/// The mark of a transition, as it may be or not, or a spare byte.
pub fn change_mark(rng: &mut Prng, net: &mut [u8]) {
    let count = net.len() / TRANSITION;
    if count == 0 {
        return;
    }
    let record = rng.below(count) * TRANSITION;
    match rng.below(6) {
        0 => net[record + MARK] = 1,
        1..=3 => net[record + MARK] ^= 1,
        4 => net[record + MARK] = rng.pick(&[2, 3, 128, 255]),
        _ => net[record + rng.between(MARK + 1, TRANSITION - 1)] = 1,
    }
}

/// One place more or fewer in a set of the net, or two transitions swapped.
fn change_one_set(rng: &mut Prng, case: &mut TreeCase) {
    let count = case.net.len() / TRANSITION;
    if count == 0 || case.ask.len() != 12 {
        return;
    }
    let (a, b) = (rng.below(count), rng.below(count));
    if rng.percent(30) {
        for i in 0..TRANSITION {
            case.net.swap(a * TRANSITION + i, b * TRANSITION + i);
        }
        return;
    }
    let at = a * TRANSITION + rng.pick(&[0, 8]);
    let place = rng.below(usize::from(case.ask[10]).clamp(1, 64));
    let set = get(&case.net, at, 8) ^ 1 << place;
    put(&mut case.net, at, 8, set);
}
