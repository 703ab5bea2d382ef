//! A join by itself, in some order of its deliveries.

use super::networks::CONSISTENT;
use super::{Bound, Expected};
use crate::compare::Pair;
use crate::random::{free_id, Rng};
use crate::script::Call;
use crate::steps::{call, expect, network};

/// A beginning of some free id by some node.
pub fn some_beginning(rng: &mut Rng, pair: &Pair) -> Option<(u32, u64)> {
    let network = network(pair);
    let id = free_id(rng, &network)?;
    let gateway = rng.between(1, network.count() as u64);
    Some((id, gateway))
}

/// The join of a node into a network that passes the verdict: until it has settled one of its deliveries can be taken, it comes to what is expected, within the bound,
/// and the verdict passes.
pub fn join_alone(
    pair: &mut Pair,
    rng: &mut Rng,
    (id, gateway): (u32, u64),
    bound: Bound,
) -> Result<Expected, String> {
    let (before, settings) = (network(pair).count(), network(pair).settings);
    let expected = Expected::of(pair.memory(), id, gateway);
    let node = before as u64 + 1;
    expect(pair, Call::Begin { id, gateway }, node << 8)?;
    let mut taken = 0;
    while !network(pair).node(before + 1).in_system() {
        let answer = deliver_one(pair, rng, node)?;
        taken += 1;
        if let [0, 3, level, ..] = answer.to_le_bytes() {
            if usize::from(level) != expected.attach_level {
                return Err(format!("attached at {level}, not {expected:?}"));
            }
        }
        if taken > bound(settings.digits(), before) {
            return Err(format!("not settled after {taken}"));
        }
    }
    if taken != expected.deliveries() {
        return Err(format!("settled after {taken}, not {expected:?}"));
    }
    expect(pair, Call::Verdict, CONSISTENT)?;
    Ok(expected)
}

/// One of the node's deliveries that can be taken.
fn deliver_one(pair: &mut Pair, rng: &mut Rng, sender: u64) -> Result<u64, String> {
    let mut receivers = asked(pair, sender);
    receivers.sort_by_cached_key(|_| rng.word());
    for receiver in receivers {
        let answer = call(pair, Call::Deliver { sender, receiver })?;
        if answer & 0xff == 0 {
            return Ok(answer);
        }
    }
    Err("no delivery can be taken".to_string())
}

/// Whom the node has requests to.
pub fn asked(pair: &Pair, sender: u64) -> Vec<u64> {
    let network = network(pair);
    let node = network.node(sender as usize);
    let receivers = 1..=network.count();
    let receivers = receivers.filter(|&receiver| node.asks(receiver));
    receivers.map(|receiver| receiver as u64).collect()
}
