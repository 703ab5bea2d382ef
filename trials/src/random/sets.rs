//! Sets of failed nodes.

use super::Rng;
use crate::script::set_of;
use crate::second::memory::MOST_NODES;

/// All of so many nodes.
pub fn all_nodes(count: usize) -> u64 {
    u64::MAX >> (MOST_NODES - count)
}

/// Often empty, mostly few of so many nodes; at times with numbers above them, or these alone, half of the nodes, all nodes or all numbers.
pub fn failed_set(rng: &mut Rng, count: usize) -> u64 {
    let (nodes, few) = (all_nodes(count), few(rng, count));
    match rng.below(16) {
        0..=5 => 0,
        6..=9 => few,
        10 => few | rng.word() & !nodes,
        11 => rng.word() & !nodes,
        12 => rng.word() & nodes,
        13 => rng.word(),
        14 => rng.pick(&[nodes, u64::MAX, !nodes]),
        _ => nodes & !few,
    }
}

/// One to three nodes, as far as there are so many.
fn few(rng: &mut Rng, count: usize) -> u64 {
    let most = rng.between(1, 3);
    let numbers: Vec<u64> = (0..most).map(|_| rng.between(1, count as u64)).collect();
    set_of(&numbers)
}
