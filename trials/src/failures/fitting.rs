//! What holds of every lookup that is taken, whatever the tables are.

use crate::panel::matched;
use crate::script::set_of;
use crate::second::memory::{State, COUNT, DIGITS, MOST_NODES};

/// Its ends are nodes that have not failed, and so is the last node; it has arrived where that is its destination, and has at most as many hops as
/// there are digits, less those already matched.
pub fn fits(state: &State, [from, to]: [u64; 2], failed: u64, answer: u64) -> Result<(), String> {
    let [_, arrived, hops, last, more @ ..] = answer.to_le_bytes();
    let last = u64::from(last);
    let nodes = 1..=state[COUNT].min(MOST_NODES as u64);
    let stands = |node: u64| nodes.contains(&node) && set_of(&[node]) & failed == 0;
    let right = [from, to, last].into_iter().all(stands)
        && arrived == u8::from(last == to)
        && u64::from(hops) + matched(state, from as usize, to as usize) <= state[DIGITS]
        && more == [0; 4];
    right.then_some(()).ok_or_else(|| {
        format!("from {from} to {to} without {failed:#x}: {arrived}, {hops} hops, last {last}")
    })
}
