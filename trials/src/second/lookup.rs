//! Lookup: from node to node, each hop through the frontmost node that has not failed of the entry that fixes one more digit.

use std::iter;

use super::answers::{Answer, LookupAnswer};
use super::memory::{self, Tables};
use super::network::Network;
use super::node_set::NodeSet;
use super::refusal::Refusal;
use super::settings::digit;
use super::soundness::lent_and_sound;
use super::table::Entry;

pub fn lookup(state: &[u64], tables: &[u8], from: u64, to: u64, failed: u64) -> LookupAnswer {
    LookupAnswer::of(try_lookup(state, tables, [from, to], NodeSet(failed)))
}

fn try_lookup(
    state: &[u64],
    tables: &[u8],
    [from, to]: [u64; 2],
    failed: NodeSet,
) -> Result<LookupAnswer, Refusal> {
    let (state, tables) = lent_and_sound(state, tables)?;
    let network = Network::decode(state);
    let (from, to) = (network.number(from)?, network.number(to)?);
    Refusal::HasFailed.when(failed.contains(from) || failed.contains(to))?;
    Ok(follow(&network, tables, [from, to], failed))
}

/// What a lookup between these nodes answers, of which neither has failed.
pub fn follow(
    network: &Network,
    tables: &Tables,
    [from, to]: [usize; 2],
    failed: NodeSet,
) -> LookupAnswer {
    let (hops, last) = (0..)
        .zip(very_hops(network, tables, [from, to], failed))
        .last()
        .expect("a lookup goes through its start");
    LookupAnswer {
        refusal: 0,
        arrived: last == to,
        hops,
        last: last as u64,
    }
}

/// The nodes that a lookup goes through, its start first.
pub fn very_hops<'a>(
    network: &'a Network,
    tables: &'a Tables,
    [from, to]: [usize; 2],
    failed: NodeSet,
) -> impl Iterator<Item = usize> + 'a {
    iter::successors(Some(from), move |&at| {
        let goes_on = at != to;
        goes_on.then(|| next_hop(network, tables, [at, to], failed).node)?
    })
}

/// Where a lookup goes from a node.
#[derive(Clone, Copy, Debug, PartialEq, Eq)]
pub struct NextHop {
    /// None where nobody is left: the lookup is lost there.
    pub node: Option<usize>,
    /// How many failed nodes stand in front of it, or are the whole entry.
    pub passed_over: usize,
}

/// From a node to another one.
pub fn next_hop(
    network: &Network,
    tables: &Tables,
    [at, to]: [usize; 2],
    failed: NodeSet,
) -> NextHop {
    let entry = entry_towards(network, tables, [at, to]);
    let in_front = entry.iter().take_while(|&node| failed.contains(node));
    let passed_over = in_front.count();
    let node = entry.iter().nth(passed_over);
    NextHop { node, passed_over }
}

/// The entry that fixes one more digit on the way from a node to another one.
pub fn entry_towards(network: &Network, tables: &Tables, [at, to]: [usize; 2]) -> Entry {
    let level = network.common_suffix(at, to);
    let wanted = digit(network.node(to).id, level);
    let table = memory::table_bytes(tables, at);
    Entry::decode(memory::entry_bytes(table, level, wanted))
}
