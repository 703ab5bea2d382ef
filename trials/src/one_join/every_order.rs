//! Every id that no node has, every gateway and every order of deliveries in small networks. Orders that come to the same memory after as many deliveries
//! go on as one.

use std::collections::{BTreeMap, HashSet};
use std::mem;

use super::networks::{Origin, CONSISTENT};
use super::{Bound, Expected};
use crate::engine::Engine;
use crate::lent::Lent;
use crate::random::{free_ids, seeds, Rng};
use crate::script::Call;
use crate::second::memory::COUNT;
use crate::second::network::Network;

/// Base, digits, and the most nodes before the join; with each depth, and from one node on.
pub type Sizes = [(u64, u64, usize)];

/// Few ids.
pub const FEW: &Sizes = &[
    (2, 1, 1),
    (3, 1, 2),
    (4, 1, 3),
    (8, 1, 6),
    (2, 2, 3),
    (3, 2, 8),
    (2, 3, 7),
    (2, 4, 8),
];

/// Many ids.
pub const WIDE: &Sizes = &[(4, 2, 6), (3, 3, 6), (4, 3, 5), (3, 4, 5), (4, 4, 4)];

/// How much a search went through.
#[derive(Clone, Debug, Default, PartialEq, Eq)]
pub struct Searched {
    pub networks: usize,
    pub joins: usize,
    /// Points of the joins: memories, each once for each number of deliveries that leads to it.
    pub points: usize,
    pub deliveries: usize,
    /// The most deliveries of a join, by the digits and the nodes before it.
    pub most: BTreeMap<(usize, usize), usize>,
}

/// In two networks of each origin for each setting and number of nodes.
pub fn every_order(engine: &dyn Engine, sizes: &Sizes, bound: Bound) -> Result<Searched, String> {
    let mut searched = Searched::default();
    let drawn = seeds(0, 2).flat_map(|seed| Origin::ALL.map(|origin| (seed, origin)));
    for &(base, digits, most) in sizes {
        for (depth, nodes) in (1..=4).flat_map(|depth| (1..=most).map(move |n| (depth, n))) {
            let settings = [base, digits, depth];
            for (seed, origin) in drawn.clone() {
                let network = origin.network(&mut Rng::new(seed), settings, nodes);
                let mut search = Search::new(engine, network, bound, &mut searched);
                let judged = search.every_join();
                let case = format!("{settings:?}, {nodes} nodes, {origin:?}, seed {seed}");
                judged.map_err(|what| format!("{case}, {what}"))?;
            }
        }
    }
    Ok(searched)
}

/// The memory that the nodes use.
#[derive(PartialEq, Eq, Hash)]
struct Point {
    words: Vec<u64>,
    bytes: Vec<u8>,
}

/// The joins into one network.
struct Search<'a> {
    engine: &'a dyn Engine,
    network: Lent,
    nodes: usize,
    most: usize,
    memory: Lent,
    searched: &'a mut Searched,
}

impl<'a> Search<'a> {
    fn new(
        engine: &'a dyn Engine,
        network: Lent,
        bound: Bound,
        searched: &'a mut Searched,
    ) -> Search<'a> {
        let decoded = Network::decode(network.used_state());
        searched.networks += 1;
        Search {
            engine,
            nodes: decoded.count(),
            most: bound(decoded.settings.digits(), decoded.count()),
            memory: network.clone(),
            network,
            searched,
        }
    }

    fn every_join(&mut self) -> Result<(), String> {
        let network = Network::decode(self.network.used_state());
        for id in free_ids(&network) {
            for gateway in 1..=self.nodes as u64 {
                let begin = Call::Begin { id, gateway };
                let expected = Expected::of(&self.network, id, gateway);
                let taken = self.join(&begin, expected);
                let taken = taken.map_err(|what| format!("{begin}: {what}"))?;
                let key = (network.settings.digits(), self.nodes);
                let most = self.searched.most.entry(key).or_default();
                *most = taken.max(*most);
                self.searched.joins += 1;
            }
        }
        Ok(())
    }

    /// Each order settles after as many deliveries as expected; answers how many.
    fn join(&mut self, begin: &Call, expected: Expected) -> Result<usize, String> {
        self.memory.clone_from(&self.network);
        let answer = self.memory.call(self.engine, begin);
        if answer != (self.nodes as u64 + 1) << 8 {
            return Err(format!("answered {answer:#x}"));
        }
        let mut open = HashSet::from([self.point()]);
        for taken in 0.. {
            self.searched.points += open.len();
            let mut settled = 0;
            for point in mem::take(&mut open) {
                let next = self.after(&point);
                let next = next.map_err(|what| format!("after {taken}, {what}"))?;
                settled += usize::from(next.is_empty());
                open.extend(next);
            }
            if settled > 0 && taken != expected.deliveries() {
                return Err(format!("settled after {taken}, not {expected:?}"));
            }
            if open.is_empty() {
                return Ok(taken);
            }
            if taken == self.most {
                return Err(format!("not settled after {taken}"));
            }
        }
        unreachable!("the numbers do not end")
    }

    /// Where the deliveries that can be taken lead; one can be, until the node has settled and the verdict passes.
    fn after(&mut self, point: &Point) -> Result<Vec<Point>, String> {
        self.restore(point);
        let network = Network::decode(self.memory.used_state());
        let joining = *network.node(self.nodes + 1);
        if joining.in_system() {
            let verdict = self.memory.call(self.engine, &Call::Verdict);
            let passes = verdict == CONSISTENT;
            return passes.then(Vec::new).ok_or(format!("verdict {verdict:#x}"));
        }
        let mut next = vec![];
        for receiver in (1..=self.nodes + 1).filter(|&receiver| joining.asks(receiver)) {
            self.restore(point);
            let (sender, receiver) = (self.nodes as u64 + 1, receiver as u64);
            let deliver = Call::Deliver { sender, receiver };
            if self.memory.call(self.engine, &deliver) & 0xff == 0 {
                next.push(self.point());
            }
        }
        self.searched.deliveries += next.len();
        let can_go_on = !next.is_empty();
        can_go_on.then_some(next).ok_or("none can be taken".into())
    }

    fn point(&self) -> Point {
        let nodes = self.memory.state[COUNT] as usize;
        Point {
            words: self.memory.state[..8 * (nodes + 1)].to_vec(),
            bytes: self.memory.tables[..512 * nodes].to_vec(),
        }
    }

    /// Memory behind that of the nodes is zero at every point of a join.
    fn restore(&mut self, Point { words, bytes }: &Point) {
        self.memory.state[..words.len()].copy_from_slice(words);
        self.memory.tables[..bytes.len()].copy_from_slice(bytes);
    }
}
