//! A network of 64 nodes with eight binary digits, in which many ways have nine nodes: one hop for each digit.

use super::networks::network;
use crate::by_hand::image;
use crate::failures::Literal;
use crate::lent::Lent;
use crate::panel::matched;
use crate::random::{path_of, Path};
use crate::second::memory::COUNT;
use crate::second::{digit, Settings};

const SETTINGS: [u8; 3] = [2, 8, 4];

/// The destinations are the ids that end in so many zeros; so many other nodes match all of them in each smaller number of digits.
const SHARED: u32 = 4;
const NEAR: u32 = 12;

/// The network, and 255 different paths of nine nodes that are allowed in it.
pub fn long_ways() -> (Lent, Vec<Path>) {
    let ids = ids();
    let memory = network(image(SETTINGS, &ids, &records(&ids)));
    let paths = paths(&memory);
    (memory, paths)
}

/// Twelve ids that match 0 in no digit, twelve that match it in one, in two and in three, and all sixteen that match it in four or more.
fn ids() -> Vec<u32> {
    let near = (0..SHARED).flat_map(|level| (0..NEAR).map(move |above| (2 * above + 1) << level));
    let destinations = (0..16).map(|above| above << SHARED);
    near.chain(destinations).map(in_digits).collect()
}

/// A bit to each digit.
fn in_digits(bits: u32) -> u32 {
    (0..8).fold(0, |id, level| id | (bits >> level & 1) << (4 * level))
}

/// What an entry holds of the nodes that qualify for it.
fn records(ids: &[u32]) -> Vec<[u8; 4]> {
    let entries = || (0..8).flat_map(|level| [0, 1].map(|wanted| (level, wanted)));
    let mut records = vec![];
    for owner in 1..=ids.len() as u8 {
        for (level, wanted) in entries() {
            let near = held(ids, owner, level, wanted);
            records.extend(
                near.iter()
                    .map(|&near| [owner, level as u8, wanted as u8, near]),
            );
        }
    }
    records
}

/// As many others as there is room for, those with the next digit 0 and with 1 in turn: so whatever the destination, one matches it in just one digit more.
fn held(ids: &[u32], owner: u8, level: usize, wanted: usize) -> Vec<u8> {
    let [base, digits, depth] = SETTINGS.map(u64::from);
    let settings = Settings::new(base, digits, depth).expect("in range");
    let id = |node: u8| ids[usize::from(node) - 1];
    let others = (1..=ids.len() as u8)
        .filter(|&node| node != owner && settings.qualified(id(node), id(owner), level, wanted));
    let mut seen = [0; 2];
    let turn = |node: u8| {
        let next = digit(id(node), (level + 1).min(7));
        seen[next] += 1;
        (seen[next], node)
    };
    let mut in_turn: Vec<(usize, u8)> = others.map(turn).collect();
    in_turn.sort();
    let own = usize::from(digit(id(owner), level) == wanted);
    in_turn.truncate(settings.depth() - own);
    in_turn.into_iter().map(|(_, node)| node).collect()
}

/// From each node that matches the destinations in no digit to each of them, by one or another node.
fn paths(memory: &Lent) -> Vec<Path> {
    let nodes = memory.state[COUNT];
    let destinations = nodes - 15..=nodes;
    let starts = 1..=u64::from(NEAR);
    let ways = starts.flat_map(|from| destinations.clone().map(move |to| [from, to]));
    let ways = ways.flat_map(|ends| [0, 1].map(|choice| step_by_step(memory, ends, choice)));
    let mut all: Vec<Path> = ways.collect();
    all.sort();
    all.dedup();
    all.truncate(255);
    all
}

/// By a node of each entry that matches the destination in just one digit more; of two such by the one that is chosen.
fn step_by_step(memory: &Lent, [from, to]: [u64; 2], choice: usize) -> Path {
    let literal = Literal::new(memory, 0);
    let common = |node: u64| matched(memory.used_state(), node as usize, to as usize);
    let mut way = vec![from];
    let mut at = from;
    while at != to {
        let mut entry = literal.entry(at, to);
        entry.retain(|&node| common(node) == common(at) + 1);
        at = entry[choice % entry.len()];
        way.push(at);
    }
    path_of(&way)
}
