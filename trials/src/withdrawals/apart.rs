//! A withdrawal after deliveries of others too: it changes nothing but its own, as if the node had never begun.

use super::expected::without_highest;
use super::steps::{attaches, COPYING, SENT_ON};
use super::steps::{beginning, call, delivery_of_others, expect, network, own_delivery, status};
use super::{meet, Met};
use crate::compare::{same_network, Pair};
use crate::engine::{Engine, Second};
use crate::lent::Lent;
use crate::random::{seeds, some_state, Rng};
use crate::script::Call;

/// From many sound states, twice each.
pub fn apart(a: &dyn Engine, b: &dyn Engine) -> Result<Met, String> {
    let mut met = Met::new();
    let mut pair = Pair::new(a, b);
    for seed in seeds(1_000, 300) {
        let rng = &mut Rng::new(seed);
        let memory = some_state(rng);
        for round in 0..2 {
            pair.restore(&memory.state, &memory.tables);
            let is_apart = withdraw(&mut pair, rng, &mut met);
            is_apart.map_err(|what| format!("seed {seed}, round {round}: {what}"))?;
        }
    }
    Ok(met)
}

/// Begins, delivers, withdraws and begins again, beside a memory in which the node does not begin before that last time.
fn withdraw(pair: &mut Pair, rng: &mut Rng, met: &mut Met) -> Result<(), String> {
    let mut never = pair.memory().clone();
    let network = network(pair);
    let Some(begin) = beginning(rng, &network) else {
        return Ok(());
    };
    let node = network.count() as u64 + 1;
    expect(pair, begin.clone(), node << 8)?;
    let own = rng.pick(&[2, 5, 40]);
    for _ in 0..rng.below(40) {
        if rng.once_in(own) {
            step_alone(pair, met, node)?;
        } else {
            step_of_others(pair, &mut never, rng, met, node)?;
        }
    }
    let copying = status(pair.memory(), node) == COPYING;
    meet(met, if copying { "copying" } else { "waiting" });

    let expected = without_highest(pair.memory());
    expect(pair, Call::Withdraw { node }, 0)?;
    same_network(["expected", "withdrawn"], &expected, pair.memory())?;
    same_network(["never begun", "withdrawn"], &never, pair.memory())?;
    expect(pair, Call::Sound, 0)?;
    expect(pair, begin.clone(), node << 8)?;
    never.call(&Second, &begin);
    same_network(["begun once", "again"], &never, pair.memory())
}

/// A delivery of the node's own.
fn step_alone(pair: &mut Pair, met: &mut Met, node: u64) -> Result<(), String> {
    let Some(own) = own_delivery(pair.memory(), node) else {
        return Ok(());
    };
    if call(pair, own)? == SENT_ON {
        meet(met, "sent on");
    }
    meet(met, "its own");
    Ok(())
}

/// A delivery of others, in both memories.
fn step_of_others(
    pair: &mut Pair,
    never: &mut Lent,
    rng: &mut Rng,
    met: &mut Met,
    node: u64,
) -> Result<(), String> {
    let Some(delivery) = delivery_of_others(rng, &network(pair), node) else {
        return Ok(());
    };
    let answer = never.call(&Second, &delivery);
    expect(pair, delivery, answer)?;
    meet(met, "of others");
    if attaches(answer) {
        meet(met, "others attach");
    }
    Ok(())
}
