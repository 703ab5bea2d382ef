//! Networks that pass the verdict: grown by joins, and filled at random, as no joins may ever leave them.

use crate::engine::Second;
use crate::failures::joined;
use crate::lent::Lent;
use crate::random::{free_id, head, id, with_records, Rng};
use crate::script::Call;
use crate::second::network::{Network, Node, Panel, Status};
use crate::second::Settings;

/// The verdict's yes.
pub const CONSISTENT: u64 = 0x100;

/// Where the nodes of a network that passes the verdict come from.
#[derive(Clone, Copy, Debug, PartialEq, Eq)]
pub enum Origin {
    /// Joins one after another.
    Grown,
    /// An image, each entry of which has as many qualified nodes as it must, any of them and in any order, but for an owner, which is first.
    Filled,
}

impl Origin {
    pub const ALL: [Origin; 2] = [Origin::Grown, Origin::Filled];

    pub fn network(self, rng: &mut Rng, settings: [u64; 3], nodes: usize) -> Lent {
        let mut memory = match self {
            Origin::Grown => joined(rng, settings, nodes),
            Origin::Filled => filled(rng, settings, nodes),
        };
        assert_eq!(memory.call(&Second, &Call::Verdict), CONSISTENT);
        memory
    }
}

fn filled(rng: &mut Rng, settings: [u64; 3], nodes: usize) -> Lent {
    let ids = some_ids(rng, settings, nodes);
    let [base, digits, _] = settings.map(|setting| setting as usize);
    let places = (0..digits).flat_map(|level| (0..base).map(move |digit| (level, digit)));
    let mut records = vec![];
    for owner in 1..=nodes {
        for (level, digit) in places.clone() {
            let entry = filled_entry(rng, settings, &ids, (owner, level, digit));
            let place = [owner, level, digit].map(|part| part as u8);
            let [owner, level, digit] = place;
            records.extend(entry.into_iter().map(|near| [owner, level, digit, near]));
        }
    }
    let head = head(settings.map(|setting| setting as u8), &ids);
    let image = with_records(&head, &records);
    let mut memory = Lent::noise();
    assert_eq!(memory.call(&Second, &Call::Read { image }), 0);
    memory
}

fn some_ids(rng: &mut Rng, settings: [u64; 3], nodes: usize) -> Vec<u32> {
    let settings = of(settings);
    let mut network = Network::settled(settings, &[id(rng, settings)]);
    while network.count() < nodes {
        let id = free_id(rng, &network).expect("there are more ids than nodes");
        let (status, panel) = (Status::InSystem, Panel::default());
        network.add(Node { id, status, panel });
    }
    network.iter().map(|(_, node)| node.id).collect()
}

/// As many as the entry must hold of those that qualify.
fn filled_entry(
    rng: &mut Rng,
    settings: [u64; 3],
    ids: &[u32],
    (owner, level, digit): (usize, usize, usize),
) -> Vec<u8> {
    let settings = of(settings);
    let qualified = |id| settings.qualified(id, ids[owner - 1], level, digit);
    let entry = (1..).zip(ids).filter(|(_, &id)| qualified(id));
    let mut entry: Vec<u8> = entry.map(|(near, _)| near).collect();
    entry.sort_by_cached_key(|&near| (usize::from(near) != owner, rng.word()));
    entry.truncate(settings.depth());
    entry
}

pub fn of([base, digits, depth]: [u64; 3]) -> Settings {
    Settings::new(base, digits, depth).expect("in range")
}
