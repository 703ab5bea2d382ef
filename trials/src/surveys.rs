//! What a survey must count: what an engine's own lookups answer, each pair of nodes that have not failed once.

use crate::engine::Engine;
use crate::lent::Lent;
use crate::script::{set_of, Call};
use crate::second::memory::{State, COUNT, DIGITS, MOST_NODES};
use crate::second::{Counts, LOST};

/// The nodes of a state that are not in this set, rising.
pub fn left(state: &State, failed: u64) -> impl Iterator<Item = u64> + Clone {
    let nodes = 1..=state[COUNT].min(MOST_NODES as u64);
    nodes.filter(move |&node| failed & set_of(&[node]) == 0)
}

/// The counts of a sound state by the engine's lookups, call by call.
pub fn by_lookups(engine: &dyn Engine, memory: &mut Lent, failed: u64) -> Counts {
    let nodes = left(memory.used_state(), failed);
    let mut counts = Counts::default();
    for from in nodes.clone() {
        for to in nodes.clone().filter(|&to| to != from) {
            let answer = memory.call(engine, &Call::Lookup { from, to, failed });
            assert_eq!(answer & 0xff, 0, "lookup {from} {to}");
            counts[place(answer)] += 1;
        }
    }
    counts
}

/// Where a survey counts the pair of a lookup that is taken.
pub fn place(answer: u64) -> usize {
    match answer.to_le_bytes() {
        [_, 1, hops, ..] => usize::from(hops) - 1,
        _ => LOST,
    }
}

/// Each ordered pair of different nodes that have not failed is counted once, and none has more hops than there are digits.
pub fn adds_up(state: &State, failed: u64, counts: &Counts) -> Result<(), String> {
    let (nodes, digits) = (left(state, failed).count() as u128, state[DIGITS] as usize);
    let pairs: u128 = counts.iter().map(|&count| u128::from(count)).sum();
    let mut too_far = counts[..LOST].iter().skip(digits);
    if pairs != nodes * nodes - nodes || too_far.any(|&count| count != 0) {
        return Err(format!(
            "{nodes} nodes left, with {digits} digits, are counted {counts:?}"
        ));
    }
    Ok(())
}
