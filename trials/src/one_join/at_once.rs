//! Several joins at once, in any order: each of them settles, but the verdict need not pass.

use std::iter;

use super::networks::{of, CONSISTENT};
use crate::engine::Second;
use crate::lent::Lent;
use crate::random::{id, Rng};
use crate::script::Call;
use crate::second::network::Network;
use crate::steps::delivery_of_others;

/// A kind of run from a founding: at each step once in `pace`, and where no request is outstanding, a node begins to join, with any id that is free and by
/// any node in system; else any outstanding request is delivered. It ends with so many nodes, all in system.
#[derive(Clone, Copy, Debug)]
pub struct AtOnce {
    pub settings: [u64; 3],
    pub nodes: usize,
    pub pace: usize,
}

impl AtOnce {
    pub fn run(&self, rng: &mut Rng) -> Lent {
        let id = id(rng, of(self.settings));
        let mut memory = Lent::noise();
        let settings = self.settings;
        memory.call(&Second, &Call::Found { settings, id });
        loop {
            let network = Network::decode(memory.used_state());
            let deliver = delivery_of_others(rng, &network, 0);
            let more = network.count() < self.nodes;
            let made = match deliver {
                Some(deliver) if !more || !rng.once_in(self.pace) => deliver,
                _ if more => any_beginning(rng, &network),
                _ => return memory,
            };
            memory.call(&Second, &made);
        }
    }

    /// Does the verdict pass where the run of this seed ends?
    pub fn ends_whole(&self, seed: u64) -> bool {
        let mut memory = self.run(&mut Rng::new(seed));
        memory.call(&Second, &Call::Verdict) == CONSISTENT
    }
}

fn any_beginning(rng: &mut Rng, network: &Network) -> Call {
    let gateways = network.iter().filter(|(_, node)| node.in_system());
    let gateways: Vec<usize> = gateways.map(|(number, _)| number).collect();
    let gateway = rng.pick(&gateways) as u64;
    let is_free = |id: &u32| network.iter().all(|(_, node)| node.id != *id);
    let mut drawn = iter::repeat_with(|| id(rng, network.settings));
    let id = drawn.find(is_free).expect("there are more ids than nodes");
    Call::Begin { id, gateway }
}
