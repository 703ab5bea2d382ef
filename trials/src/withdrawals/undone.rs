//! A beginning, any of the new node's own deliveries that do not attach it, calls that only look or are refused, and its withdrawal: every word and
//! byte is as it was before.

use super::steps::{beginning, call, expect, looking, network, own_delivery, status};
use super::steps::{COPIED, COPYING, WAITING};
use super::{meet, Met};
use crate::compare::{same_network, Pair};
use crate::engine::Engine;
use crate::random::{seeds, some_state, Rng};
use crate::script::Call;

/// From many sound states, with several new nodes each.
pub fn undone(a: &dyn Engine, b: &dyn Engine) -> Result<Met, String> {
    let mut met = Met::new();
    let mut pair = Pair::new(a, b);
    for seed in seeds(0, 150) {
        let rng = &mut Rng::new(seed);
        let memory = some_state(rng);
        for round in 0..4 {
            pair.restore(&memory.state, &memory.tables);
            let is_undone = undo(&mut pair, rng, &mut met);
            is_undone.map_err(|what| format!("seed {seed}, round {round}: {what}"))?;
        }
    }
    Ok(met)
}

fn undo(pair: &mut Pair, rng: &mut Rng, met: &mut Met) -> Result<(), String> {
    let before = pair.memory().clone();
    let network = network(pair);
    let Some(begin) = beginning(rng, &network) else {
        return Ok(());
    };
    let node = network.count() as u64 + 1;
    expect(pair, begin, node << 8)?;
    for _ in 0..rng.below(12) {
        step(pair, rng, met, node)?;
    }
    match status(pair.memory(), node) {
        COPYING => meet(met, "copying"),
        WAITING => meet(met, "waiting"),
        other => return Err(format!("node {node} has status {other}")),
    }
    expect(pair, Call::Withdraw { node }, 0)?;
    same_network(["before", "withdrawn"], &before, pair.memory())?;
    expect(pair, Call::Sound, 0)
}

/// Mostly a delivery of the node's own.
fn step(pair: &mut Pair, rng: &mut Rng, met: &mut Met, node: u64) -> Result<(), String> {
    let own = own_delivery(pair.memory(), node).filter(|_| !rng.once_in(4));
    let Some(own) = own else {
        call(pair, looking(rng, node))?;
        return Ok(());
    };
    match call(pair, own)? {
        COPIED => meet(met, "copied"),
        14 => meet(met, "held"),
        other => return Err(format!("node {node}'s own delivery is answered {other:#x}")),
    }
    Ok(())
}
