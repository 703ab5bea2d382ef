//! Networks, made once, and allowed paths to put faults into.

use std::sync::OnceLock;

use crate::by_hand::{five, surveyed};
use crate::engine::Second;
use crate::failures::{self, joined, Literal};
use crate::lent::Lent;
use crate::paper::E1;
use crate::random::{path_of, Path, Rng};
use crate::script::Call;
use crate::second::memory::COUNT;

/// A network and its name.
pub type Named = (String, Lent);

/// The small networks in which nodes fail.
pub fn small() -> &'static [Named] {
    static SMALL: OnceLock<Vec<Named>> = OnceLock::new();
    SMALL.get_or_init(failures::small)
}

/// Those worked out by hand, one with entries of four, and some small ones, with joins under way too.
pub fn networks() -> &'static [Named] {
    static NETWORKS: OnceLock<Vec<Named>> = OnceLock::new();
    NETWORKS.get_or_init(made)
}

fn made() -> Vec<Named> {
    let by_hand = [("E1", E1.to_vec()), ("five", five()), ("chain", chain())];
    let read = |(name, image): (&str, Vec<u8>)| (name.to_string(), network(image));
    let deep = joined(&mut Rng::new(1), [2, 6, 4], 20);
    let mut all: Vec<Named> = by_hand.map(read).into();
    all.push(("entries of four".into(), deep));
    all.extend(small().iter().step_by(5).cloned());
    all
}

/// The network of an image, in memory of its own.
pub fn network(image: Vec<u8>) -> Lent {
    let mut memory = Lent::noise();
    assert_eq!(memory.call(&Second, &Call::Read { image }), 0);
    memory
}

/// The image of this name whose survey is worked out by hand.
pub fn image_of(name: &str) -> Vec<u8> {
    let case = surveyed().into_iter().find(|case| case.name == name);
    case.expect(name).image
}

/// The image of the chain: nine nodes, of which each has only the next.
pub fn chain() -> Vec<u8> {
    image_of("chain")
}

/// Some allowed paths, each once, of lookups and by the last of each entry: the longest, and others.
pub fn ways(memory: &Lent) -> Vec<Path> {
    let (literal, nodes) = (Literal::new(memory, 0), 1..=memory.state[COUNT]);
    let pairs = nodes
        .clone()
        .flat_map(|from| nodes.clone().map(move |to| [from, to]));
    let both = |[from, to]: [u64; 2]| [literal.way(from, to).nodes, by_the_last(literal, from, to)];
    let mut all: Vec<Path> = pairs.flat_map(both).map(|nodes| path_of(&nodes)).collect();
    all.sort_by_key(|path| (std::cmp::Reverse(path.len()), path.clone()));
    all.dedup();
    let apart = 1 + all.len() / 8;
    all.into_iter().step_by(apart).collect()
}

/// By the last of each entry, until one is empty.
fn by_the_last(literal: Literal, from: u64, to: u64) -> Vec<u64> {
    let next = |&at: &u64| literal.entry(at, to).last().copied();
    std::iter::successors(Some(from), next).collect()
}
