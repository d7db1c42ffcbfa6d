//! Records as bytes.

use reference::check::{ASK, Ask, Node};
use reference::formula::{ALL, FORMULA, Formula, SOME};
use reference::net::{MARK, TRANSITION, is_optional, members};

#[derive(Clone, Copy, Debug, PartialEq, Eq)]
pub struct Transition {
    pub pre: u64,
    pub post: u64,
    pub action: u16,
}

pub fn transition(t: &Transition) -> [u8; TRANSITION] {
    let mut record = [0; TRANSITION];
    record[0..8].copy_from_slice(&t.pre.to_le_bytes());
    record[8..16].copy_from_slice(&t.post.to_le_bytes());
    record[16..18].copy_from_slice(&t.action.to_le_bytes());
    record
}

pub fn net(transitions: &[Transition]) -> Vec<u8> {
    transitions.iter().flat_map(transition).collect()
}

/// The net with these transitions optional.
pub fn marked_net(transitions: &[Transition], optional: u64) -> Vec<u8> {
    let mut table = net(transitions);
    members(optional).for_each(|t| table[t * TRANSITION + MARK] = 1);
    table
}

/// Whether a net's table has an optional transition.
pub fn has_optional(net: &[u8]) -> bool {
    net.chunks_exact(TRANSITION).any(is_optional)
}

/// Whether a formula table has an "until".
pub fn has_until(formulas: &[u8]) -> bool {
    let mut records = formulas.chunks_exact(FORMULA);
    records.any(|record| matches!(record[0], SOME | ALL))
}

pub fn formula(f: &Formula) -> [u8; FORMULA] {
    let mut record = [0; FORMULA];
    record[0] = f.operator;
    record[2..4].copy_from_slice(&f.left.to_le_bytes());
    record[4..6].copy_from_slice(&f.right.to_le_bytes());
    record[6..8].copy_from_slice(&f.action.to_le_bytes());
    record
}

pub fn formulas(list: &[Formula]) -> Vec<u8> {
    list.iter().flat_map(formula).collect()
}

pub fn ask(ask: &Ask) -> Vec<u8> {
    let mut record = [0; ASK];
    record[0..8].copy_from_slice(&ask.marking.to_le_bytes());
    record[8..10].copy_from_slice(&ask.formula.to_le_bytes());
    record[10] = ask.places;
    record[11] = ask.side;
    record.to_vec()
}

pub fn tree(nodes: &[Node]) -> Vec<u8> {
    nodes.iter().flat_map(Node::record).collect()
}
