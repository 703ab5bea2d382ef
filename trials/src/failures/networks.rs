//! Networks in which nodes fail.

use crate::engine::Second;
use crate::lent::Lent;
use crate::random::{built_state, free_id, id, parts, with_records, Rng};
use crate::script::Call;
use crate::second::memory::{COUNT, STATE_WORDS, TABLE_BYTES};
use crate::second::network::Network;
use crate::second::Settings;
use crate::steps::{beginning, delivery_of_others};

/// Settings, and how many nodes: few enough that every set of them is tried.
const SMALL: [([u64; 3], usize); 8] = [
    ([2, 4, 3], 6),
    ([2, 5, 4], 7),
    ([3, 2, 2], 6),
    ([2, 3, 1], 6),
    ([2, 3, 2], 8),
    ([4, 2, 4], 6),
    ([16, 1, 3], 5),
    ([16, 8, 2], 6),
];

/// Small networks by name: joined one node after another, with joins under way, with neighbors left out, and built from the clauses of soundness alone.
pub fn small() -> Vec<(String, Lent)> {
    let mut all = vec![];
    for (seed, (settings, nodes)) in (0..).zip(SMALL) {
        let rng = &mut Rng::new(seed);
        let joined = joined(rng, settings, nodes);
        let short = [0; 2].map(|_| shortened(rng, &joined));
        let under_way = [0; 3].map(|_| under_way(rng, settings, nodes));
        all.push((format!("joined, {settings:?}"), joined));
        let short = short.map(|memory| (format!("shortened, {settings:?}"), memory));
        let under_way = under_way.map(|memory| (format!("under way, {settings:?}"), memory));
        all.extend(short.into_iter().chain(under_way));
    }
    all.extend((0..60).filter_map(built));
    all
}

/// Nodes that joined one after another, each by some other.
pub fn joined(rng: &mut Rng, settings: [u64; 3], nodes: usize) -> Lent {
    let mut memory = founded(rng, settings);
    while memory.state[COUNT] < nodes as u64 {
        let network = Network::decode(memory.used_state());
        let id = free_id(rng, &network).expect("there are more ids than nodes");
        let gateway = rng.between(1, network.count() as u64);
        memory.call(&Second, &Call::Begin { id, gateway });
        while deliver(rng, &mut memory) {}
    }
    memory
}

fn founded(rng: &mut Rng, settings: [u64; 3]) -> Lent {
    let [base, digits, depth] = settings;
    let valid = Settings::new(base, digits, depth).expect("in range");
    let id = id(rng, valid);
    let mut memory = Lent::noise();
    memory.call(&Second, &Call::Found { settings, id });
    memory
}

/// Delivers an outstanding request, if there is one.
fn deliver(rng: &mut Rng, memory: &mut Lent) -> bool {
    let network = Network::decode(memory.used_state());
    let made = delivery_of_others(rng, &network, 0);
    made.map(|made| memory.call(&Second, &made)).is_some()
}

/// So many nodes, of which some have not joined yet.
fn under_way(rng: &mut Rng, settings: [u64; 3], nodes: usize) -> Lent {
    let mut memory = founded(rng, settings);
    while memory.state[COUNT] < nodes as u64 {
        let network = Network::decode(memory.used_state());
        let begin = beginning(rng, &network).expect("there are more ids than nodes");
        memory.call(&Second, &begin);
        for _ in 0..rng.below(8) {
            deliver(rng, &mut memory);
        }
    }
    memory
}

/// The same nodes with some neighbors left out, and the others of an entry in any order, but for an owner.
pub fn shortened(rng: &mut Rng, whole: &Lent) -> Lent {
    let mut memory = whole.clone();
    let length = (memory.call(&Second, &Call::WRITE_1) >> 8) as usize;
    let (head, records) = parts(&memory.out[..length]).expect("an image with its counts");
    let mut drawn: Vec<([u8; 4], u64)> = records.into_iter().map(|r| (r, rng.word())).collect();
    let owns = |[node, _, _, near]: [u8; 4]| node == near;
    drawn.retain(|&(record, lot)| owns(record) || lot % 4 != 0);
    drawn.sort_by_key(|&(record, lot)| (record[0], record[1], record[2], !owns(record), lot));
    let records: Vec<[u8; 4]> = drawn.into_iter().map(|(record, _)| record).collect();
    let image = with_records(&head, &records);
    assert_eq!(memory.call(&Second, &Call::Read { image }), 0);
    memory
}

/// A built state, unless it has too many nodes.
fn built(seed: u64) -> Option<(String, Lent)> {
    let (state, tables) = built_state(&mut Rng::new(seed));
    let mut memory = Lent::noise();
    memory.state[..STATE_WORDS].copy_from_slice(&state[..]);
    memory.tables[..TABLE_BYTES].copy_from_slice(&tables[..]);
    let few = (2..=6).contains(&state[COUNT]);
    few.then(|| (format!("built, seed {seed}"), memory))
}
