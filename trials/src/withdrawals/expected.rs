//! The refusal of a withdrawal, and the memory after it.

use crate::lent::Lent;
use crate::second::memory::{record, table_bytes, State, COUNT, MOST_NODES};

/// The refusal in a sound state that is lent whole, 0 for none.
pub fn refusal(state: &State, node: u64) -> u64 {
    let count = state[COUNT];
    if node == 0 || node > count {
        return 9;
    }
    if node < count {
        return 19;
    }
    let [_, status, ..] = *record(state, count as usize);
    match status {
        1 | 2 => 0,
        _ => 20,
    }
}

/// The memory after the withdrawal of the highest-numbered node.
pub fn without_highest(before: &Lent) -> Lent {
    let mut after = before.clone();
    let node = before.state[COUNT] as usize;
    after.state[COUNT] -= 1;
    after.state[8 * node..8 * node + 8].fill(0);
    after.tables[512 * (node - 1)..512 * node].fill(0);
    after
}

/// A taken withdrawal answers that it was taken and no more. It was of the highest-numbered node, which is gone with its record and its table.
pub fn is_gone(node: u64, answer: u64, before: &Lent, after: &Lent) -> Result<(), String> {
    let count = before.state[COUNT];
    let could_be = (1..=MOST_NODES as u64).contains(&node) && node == count;
    if answer != 0 || !could_be {
        return Err(format!("{node} of {count} withdrawn, answer {answer:#x}"));
    }
    let (state, number) = (after.used_state(), node as usize);
    let gone = state[COUNT] == count - 1
        && *record(state, number) == [0; 8]
        && *table_bytes(after.used_tables(), number) == [0; 512];
    gone.then_some(())
        .ok_or_else(|| format!("node {node} is not gone"))
}
