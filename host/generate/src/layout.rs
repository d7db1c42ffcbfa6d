//! The order of the nodes of a tree in its table.

use reference::check::Node;

use crate::prng::Prng;
use crate::search::Built;

#[derive(Clone, Copy)]
pub enum Order {
    /// By levels.
    Levels,
    /// The children of the node reached last come first.
    Depth,
    /// Any order with parents before children.
    Any,
}

/// The node records of a tree, children consecutive and above their parent.
pub fn lay_out(built: &[Built], order: Order, rng: &mut Prng) -> Vec<Node> {
    let mut nodes = Vec::with_capacity(built.len());
    nodes.push(record(&built[0], 0));
    let mut open = std::collections::VecDeque::from([(0, 0)]);
    while let Some((source, number)) = take(&mut open, order, rng) {
        let children = &built[source].children;
        if children.is_empty() {
            continue;
        }
        nodes[number].first = nodes.len() as u32;
        nodes[number].children = children.len() as u8;
        for &child in children {
            open.push_back((child, nodes.len()));
            nodes.push(record(&built[child], number as u32));
        }
    }
    nodes
}

fn take(
    open: &mut std::collections::VecDeque<(usize, usize)>,
    order: Order,
    rng: &mut Prng,
) -> Option<(usize, usize)> {
    match order {
        Order::Levels => open.pop_front(),
        Order::Depth => open.pop_back(),
        Order::Any if open.is_empty() => None,
        Order::Any => open.swap_remove_back(rng.below(open.len())),
    }
}

fn record(built: &Built, parent: u32) -> Node {
    Node {
        sequent: built.sequent,
        parent,
        first: 0,
        children: 0,
        rule: built.rule,
        transition: built.transition,
    }
}
