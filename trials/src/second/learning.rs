//! Learning: storing another node, or all nodes of another's table, wherever they qualify and room is left.

use super::network::Network;
use super::settings::digit;
use super::table::Table;

/// `learner`, whose table is `own`, learns `node` at each level from its floor to their common suffix.
pub fn learn_node(network: &Network, learner: usize, own: &mut Table, node: usize) {
    let learned = network.node(node);
    for level in learned.floor()..=network.common_suffix(learner, node) {
        own.append(level, digit(learned.id, level), node);
    }
}

/// `learner`, whose table is `own`, learns each node of `other` but itself, by level, digit and slot.
pub fn learn_table(network: &Network, learner: usize, own: &mut Table, other: &Table) {
    for node in other.nodes().filter(|&node| node != learner) {
        learn_node(network, learner, own, node);
    }
}
