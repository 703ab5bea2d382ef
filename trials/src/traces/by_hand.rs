//! Traces with their answers, worked out by hand.

use super::networks::{chain, image_of};
use crate::by_hand::five;
use crate::compare::Pair;
use crate::engine::Engine;
use crate::paper::{e1_short, E1};
use crate::random::trace_file;
use crate::script::Call;
use crate::steps::expect;

/// Files that are refused 22 wherever the nodes 1 and 2 are, whatever else is wrong with them.
const WRONG_COUNTS: [&[u8]; 32] = [
    &[],
    &[0, 0], // a byte behind the last path
    &[0, 1],
    &[0, 1, 1],
    &[1],
    &[1, 0], // a path of no nodes
    &[1, 0, 1],
    &[1, 1],
    &[1, 1, 1, 1],
    &[1, 1, 0, 0],
    &[1, 2],
    &[1, 2, 1],
    &[1, 2, 0],
    &[1, 2, 1, 2, 1],
    &[1, 2, 2, 2, 2],
    &[1, 9, 1, 2],
    &[1, 10],
    &[1, 10, 1],
    &[1, 10, 1, 2, 1, 2, 1, 2, 1, 2, 1, 2], // ten nodes
    &[1, 10, 1, 1, 1, 1, 1, 1, 1, 1, 1, 1],
    &[1, 255],
    &[1, 255, 1],
    &[2, 0],
    &[2, 0, 0],
    &[2, 1, 1],
    &[2, 1, 1, 2],
    &[2, 1, 0, 2, 1],          // 9 behind which a number is missing
    &[2, 2, 1, 1, 10, 1],      // 23 before ten nodes
    &[2, 1, 1, 1, 2, 1, 1],    // a third path, which is not counted
    &[2, 2, 1, 1, 1, 0, 1, 1], // the same, behind 23 and 9
    &[3, 1, 1, 1, 2],
    &[255, 1, 1, 1, 2, 1, 2],
];

const fn no_node(path: u64, place: u64) -> u64 {
    9 | path << 8 | place << 16
}

const fn not_allowed(path: u64, step: u64) -> u64 {
    23 | path << 8 | step << 16
}

/// The paths of a file, and its answer.
type Case = (&'static [&'static [u8]], u64);

/// Nodes 1 and 2, each the only one in the other's entry.
const IN_E1: [Case; 43] = [
    (&[], 0),
    (&[&[1]], 0), // a path of one node has no step
    (&[&[2]], 0),
    (&[&[0]], no_node(1, 1)),
    (&[&[3]], no_node(1, 1)),
    (&[&[64]], no_node(1, 1)),
    (&[&[65]], no_node(1, 1)),
    (&[&[129]], no_node(1, 1)),
    (&[&[255]], no_node(1, 1)),
    (&[&[1, 2]], 0),
    (&[&[2, 1]], 0),
    (&[&[1, 1]], not_allowed(1, 1)), // past the destination
    (&[&[2, 2]], not_allowed(1, 1)),
    (&[&[1, 0]], no_node(1, 2)),
    (&[&[0, 2]], no_node(1, 1)),
    (&[&[0, 3]], no_node(1, 1)),
    (&[&[3, 3]], no_node(1, 1)),
    (&[&[1, 2, 2]], not_allowed(1, 2)), // the destination twice
    (&[&[1, 1, 2]], not_allowed(1, 1)), // stays where it is
    (&[&[1, 2, 1]], not_allowed(1, 1)), // leaves the destination and returns to it
    (&[&[2, 1, 2]], not_allowed(1, 1)),
    (&[&[1, 1, 1]], not_allowed(1, 1)),
    (&[&[1, 2, 3]], no_node(1, 3)),
    (&[&[1, 1, 3]], no_node(1, 3)), // 9 before 23, though behind it
    (&[&[3, 1, 3]], no_node(1, 1)),
    (&[&[2, 1, 1, 1, 1, 1, 1, 1, 1]], not_allowed(1, 2)),
    (&[&[1, 1, 1, 1, 1, 1, 1, 1, 2]], not_allowed(1, 1)),
    (&[&[2, 2, 2, 2, 2, 2, 2, 2, 3]], no_node(1, 9)),
    (&[&[1], &[2]], 0),
    (&[&[1], &[1, 2]], 0),
    (&[&[1, 2], &[2, 1]], 0),
    (&[&[1, 2], &[1, 1]], not_allowed(2, 1)),
    (&[&[1, 1], &[1, 1]], not_allowed(1, 1)),
    (&[&[1, 1], &[2, 1]], not_allowed(1, 1)),
    (&[&[1, 1], &[1, 2, 2]], not_allowed(1, 1)),
    (&[&[1, 2], &[1, 2, 2]], not_allowed(2, 2)),
    (&[&[1, 1], &[1, 2, 3]], no_node(2, 3)), // 9 before 23, though in a later path
    (&[&[1, 1], &[3, 0]], no_node(2, 1)),
    (&[&[1, 0], &[1, 2, 3]], no_node(1, 2)),
    (&[&[1], &[2], &[3]], no_node(3, 1)),
    (&[&[1], &[2], &[1, 1]], not_allowed(3, 1)),
    (&[&[1], &[2], &[2]], 0),
    (&[&[1, 2], &[1, 2], &[1, 2]], 0),
];

/// The same without node 2 in the table of node 1, where a lookup to it is lost.
const IN_E1_SHORT: [Case; 5] = [
    (&[&[1, 2]], not_allowed(1, 1)),
    (&[&[2, 1]], 0),
    (&[&[1], &[2]], 0),
    (&[&[2, 1], &[1, 2]], not_allowed(2, 1)),
    (&[&[2, 1, 2]], not_allowed(1, 1)),
];

/// In the network of five nodes: node 1 has 2, 3 and 4 for the digit 1, and nodes 2 to 5 have two nodes for the next one.
const IN_FIVE: [Case; 30] = [
    (&[&[1, 2, 3, 5]], 0),           // the way of a lookup
    (&[&[1, 3, 5]], 0),              // around node 2
    (&[&[1, 2, 5]], 0),              // around node 3
    (&[&[1, 4, 5]], 0),              // around both
    (&[&[1, 4, 3, 5]], 0),           // by the third of an entry, then by the first
    (&[&[1, 5]], not_allowed(1, 1)), // node 5 qualifies, but the entry is full without it
    (&[&[1, 2]], 0),
    (&[&[1, 3]], 0),
    (&[&[1, 4]], 0),
    (&[&[1, 3, 2]], 0), // by node 3, though the destination stands in front of it
    (&[&[1, 4, 2]], 0),
    (&[&[1, 4, 3]], 0),
    (&[&[1, 3, 4]], 0),
    (&[&[1, 2, 4]], 0),
    (&[&[1, 3, 2, 4]], 0),
    (&[&[1, 4, 2, 3]], not_allowed(1, 2)), // node 2 has no digit more of node 3's
    (&[&[1, 5, 3]], not_allowed(1, 1)),
    (&[&[2, 5, 3]], 0), // by the second of an entry, though the destination is the first
    (&[&[2, 3, 2, 5]], not_allowed(1, 2)), // back
    (&[&[1, 2, 1, 5]], not_allowed(1, 2)),
    (&[&[1, 2, 3, 2]], not_allowed(1, 2)), // past the destination and back to it
    (&[&[1, 2, 3, 255]], no_node(1, 4)),
    (&[&[1, 2, 3, 5, 5]], not_allowed(1, 4)),
    (&[&[1, 2, 3, 5, 4, 5]], not_allowed(1, 4)),
    (&[&[5, 1]], 0),
    (&[&[5, 3, 1]], not_allowed(1, 1)),
    (&[&[6]], no_node(1, 1)),
    (&[&[1, 2, 3, 5], &[1, 5]], not_allowed(2, 1)),
    (&[&[1, 5], &[1, 2, 3, 5, 5]], not_allowed(1, 1)),
    (&[&[1, 5], &[1, 2, 3, 5], &[6]], no_node(3, 1)),
];

/// In the chain, where each node has only the next, with eight digits: the longest way.
const IN_CHAIN: [Case; 11] = [
    (&[&[1, 2, 3, 4, 5, 6, 7, 8, 9]], 0),
    (&[&[2, 3, 4, 5, 6, 7, 8, 9]], 0),
    (&[&[1, 2, 3, 4, 5, 6, 7, 8]], 0),
    (&[&[1, 2, 3, 4, 5, 6, 7, 8, 9, 9]], 22),
    (&[&[1, 2, 3, 4, 5, 6, 7, 8, 8]], not_allowed(1, 8)),
    (&[&[1, 2, 3, 4, 5, 6, 7, 7, 7]], not_allowed(1, 7)),
    (&[&[1, 2, 3, 4, 5, 6, 7, 9, 9]], not_allowed(1, 7)), // over node 8
    (&[&[1, 1, 3, 4, 5, 6, 7, 8, 9]], not_allowed(1, 1)),
    (&[&[9, 8, 7, 6, 5, 4, 3, 2, 1]], not_allowed(1, 1)),
    (&[&[1, 2, 3, 4, 5, 6, 7, 8, 10]], no_node(1, 9)),
    (&[&[1, 3], &[1, 2, 3, 4, 5, 6, 7, 8, 0]], no_node(2, 9)),
];

/// 64 nodes that know only themselves.
const IN_64: [Case; 5] = [
    (&[&[64]], 0),
    (&[&[1], &[63], &[64]], 0),
    (&[&[63, 64]], not_allowed(1, 1)),
    (&[&[65]], no_node(1, 1)),
    (&[&[63, 64], &[64, 65]], no_node(2, 2)),
];

pub fn by_hand(a: &dyn Engine, b: &dyn Engine) -> Result<(), String> {
    let networks = [
        (E1.to_vec(), &IN_E1[..]),
        (e1_short(), &IN_E1_SHORT),
        (five(), &IN_FIVE),
        (chain(), &IN_CHAIN),
        (image_of("64 alone"), &IN_64),
    ];
    let mut pair = Pair::new(a, b);
    for (image, cases) in networks {
        expect(&mut pair, Call::Read { image }, 0)?;
        for trace in WRONG_COUNTS.map(<[u8]>::to_vec) {
            expect(&mut pair, Call::Trace { trace }, 22)?;
        }
        for (paths, answer) in cases {
            let paths: Vec<Vec<u8>> = paths.iter().map(|path| path.to_vec()).collect();
            let trace = trace_file(&paths);
            expect(&mut pair, Call::Trace { trace }, *answer)?;
        }
    }
    Ok(())
}
