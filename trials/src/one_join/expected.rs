//! What a join into a network that passes the verdict comes to, whatever the order of its deliveries, by the nodes' ids and the first of each entry alone.

use crate::lent::Lent;
use crate::second::memory::COUNT;
use crate::second::network::Network;

/// A join that has not begun: it copies from each node on the way of its requests, waits once for the last of these, and gives notice to every other
/// node that shares with it as many digits as its attach level, or more.
#[derive(Clone, Copy, Debug, PartialEq, Eq)]
pub struct Expected {
    pub copies: usize,
    pub attach_level: usize,
    pub notices: usize,
}

impl Expected {
    pub fn of(memory: &Lent, id: u32, gateway: u64) -> Expected {
        let network = Network::decode(memory.used_state());
        let (settings, depth) = (network.settings, network.settings.depth());
        let shared = |node: u64| settings.common_suffix(id, network.node(node as usize).id);
        let nodes = 1..=memory.state[COUNT];
        let at_least = |level| nodes.clone().filter(|&node| shared(node) >= level).count();

        let (mut at, mut copies) = (gateway, 1);
        while at_least(shared(at) + 1) >= depth {
            at = first(memory, at, id, shared(at));
            copies += 1;
        }
        let attach_level = (0..).find(|&level| at_least(level + 1) < depth);
        let attach_level = attach_level.expect("nobody shares all digits");
        Expected {
            copies,
            attach_level,
            notices: at_least(attach_level) - 1,
        }
    }

    pub fn deliveries(&self) -> usize {
        self.copies + 1 + self.notices
    }
}

/// The first of a node's entry at this level for the digit that the id has there.
fn first(memory: &Lent, node: u64, id: u32, level: usize) -> u64 {
    let digit = (id >> (4 * level) & 15) as usize;
    let place = 512 * (node as usize - 1) + 64 * level + 4 * digit;
    memory.tables[place].into()
}
