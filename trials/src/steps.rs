//! Steps of two engines; an error says what is wrong.

use crate::compare::{same_network, Pair};
use crate::lent::ALL;
use crate::random::{fresh_id, Rng};
use crate::script::{Call, Lend, Line};
use crate::second::memory::MOST_NODES;
use crate::second::network::Network;

pub fn call(pair: &mut Pair, call: Call) -> Result<u64, String> {
    let line = Line::Call(call);
    pair.obey(&line).map_err(|what| format!("{line}: {what}"))
}

/// A call that must be answered so.
pub fn expect(pair: &mut Pair, made: Call, answer: u64) -> Result<(), String> {
    let found = call(pair, made.clone())?;
    if found != answer {
        return Err(format!("{made}: {found:#x}, not {answer:#x}"));
    }
    Ok(())
}

/// A call that must be answered so, and keep the network.
pub fn expect_kept(pair: &mut Pair, made: Call, answer: u64) -> Result<(), String> {
    let before = pair.memory().clone();
    expect(pair, made, answer).map_err(|what| format!("{:?}, {what}", before.lend))?;
    same_network(["before", "after"], &before, pair.memory())
}

/// From here on so many words and bytes are lent, with this in an unused word.
pub fn lend(pair: &mut Pair, (state, tables, unused): (usize, usize, u64)) -> Result<(), String> {
    let (place, value) = (7, unused);
    pair.obey(&Line::Word { place, value })?;
    let lend = Lend {
        state,
        tables,
        ..ALL
    };
    pair.obey(&Line::Lend(lend))?;
    Ok(())
}

/// The call of a line.
pub fn called(text: &str) -> Call {
    match text.parse() {
        Ok(Line::Call(call)) => call,
        other => unreachable!("{text}: {other:?}"),
    }
}

pub fn network(pair: &Pair) -> Network {
    Network::decode(pair.memory().used_state())
}

/// A beginning of a new node by a node in system; None where no more fit.
pub fn beginning(rng: &mut Rng, network: &Network) -> Option<Call> {
    let gateways = network.iter().filter(|(_, node)| node.in_system());
    let gateways: Vec<usize> = gateways.map(|(number, _)| number).collect();
    let id = fresh_id(rng, network).filter(|_| network.count() < MOST_NODES)?;
    let gateway = rng.pick(&gateways) as u64;
    Some(Call::Begin { id, gateway })
}

/// A delivery of an outstanding request of another node than this, if there is one.
pub fn delivery_of_others(rng: &mut Rng, network: &Network, node: u64) -> Option<Call> {
    let mut outstanding = network.outstanding();
    outstanding.retain(|&(sender, _)| sender as u64 != node);
    if outstanding.is_empty() {
        return None;
    }
    let (sender, receiver) = rng.pick(&outstanding);
    Some(Call::Deliver {
        sender: sender as u64,
        receiver: receiver as u64,
    })
}
