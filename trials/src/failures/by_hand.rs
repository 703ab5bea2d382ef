//! Lookups and surveys around failed nodes, worked out by hand.

use crate::by_hand::{five, image, surveyed, surveyed_without};
use crate::compare::Pair;
use crate::engine::Engine;
use crate::script::Call;
use crate::steps::{called, expect};

const fn arrived(hops: u64, last: u64) -> u64 {
    1 << 8 | hops << 16 | last << 24
}

const fn lost(hops: u64, last: u64) -> u64 {
    hops << 16 | last << 24
}

/// In the network of five nodes.
#[rustfmt::skip]
const IN_FIVE: [(&str, u64); 44] = [
    ("lookup 1 5", arrived(3, 5)), // by 2 and 3
    ("lookup 1 5 without 4", arrived(3, 5)),
    ("lookup 1 5 without 2", arrived(2, 5)), // by 3
    ("lookup 1 5 without 3", arrived(2, 5)), // by 2, which then has 5
    ("lookup 1 5 without 2 4", arrived(2, 5)),
    ("lookup 1 5 without 3 4", arrived(2, 5)),
    ("lookup 1 5 without 2 3", arrived(2, 5)), // by 4, past 3 again
    ("lookup 1 5 without 2 3 4", lost(0, 1)),
    ("lookup 1 5 without 4 3 2 2 3", lost(0, 1)),
    ("lookup 1 5 without 6 7 64", arrived(3, 5)), // numbers that no node has
    ("lookup 1 5 without 0 65 18446744073709551615", arrived(3, 5)),
    ("lookup 1 5 without 2 6 64", arrived(2, 5)),
    ("lookup 1 5 without 1", 21),
    ("lookup 1 5 without 5", 21),
    ("lookup 1 5 without 1 5", 21),
    ("lookup 1 5 without 1 2 3 4 5", 21),
    ("lookup 1 5 without 2 3 4 5", 21),
    ("lookup 1 4", arrived(2, 4)), // by 2
    ("lookup 1 4 without 2", arrived(2, 4)), // by 3, past 2 again
    ("lookup 1 4 without 3", arrived(2, 4)),
    ("lookup 1 4 without 2 3", arrived(1, 4)),
    ("lookup 1 4 without 2 3 5", arrived(1, 4)),
    ("lookup 1 3", arrived(2, 3)),
    ("lookup 1 3 without 2", arrived(1, 3)),
    ("lookup 1 2", arrived(1, 2)),
    ("lookup 1 2 without 3 4 5", arrived(1, 2)),
    ("lookup 2 5", arrived(2, 5)),
    ("lookup 2 5 without 3", arrived(1, 5)),
    ("lookup 2 5 without 1 3 4", arrived(1, 5)),
    ("lookup 3 4", arrived(2, 4)),
    ("lookup 3 4 without 2", arrived(1, 4)),
    ("lookup 5 4 without 2", arrived(1, 4)),
    ("lookup 5 1 without 2 3 4", arrived(1, 1)),
    ("lookup 3 3", arrived(0, 3)),
    ("lookup 3 3 without 1 2 4 5", arrived(0, 3)),
    ("lookup 3 3 without 3", 21),
    ("lookup 3 3 without 64", arrived(0, 3)),
    ("lookup 6 6 without 6", 9),
    ("lookup 0 1 without 1", 9),
    ("lookup 1 6 without 1", 9),
    ("lookup 6 1 without 1", 9),
    ("lookup 64 1 without 1 64", 9),
    ("lookup 18446744073709551615 1 without 1", 9),
    ("lookup 1 9223372036854775808 without 1", 9),
];

/// In the chain, where each node has only the next.
#[rustfmt::skip]
const IN_CHAIN: [(&str, u64); 9] = [
    ("lookup 1 9", arrived(8, 9)),
    ("lookup 1 9 without 2", lost(0, 1)),
    ("lookup 1 9 without 5", lost(3, 4)),
    ("lookup 1 9 without 5 7", lost(3, 4)),
    ("lookup 1 9 without 8", lost(6, 7)),
    ("lookup 6 9 without 1 2 3 4 5", arrived(3, 9)),
    ("lookup 1 4 without 5 6 7 8 9", arrived(3, 4)),
    ("lookup 9 1", lost(0, 9)),
    ("lookup 9 1 without 5", lost(0, 9)),
];

/// Of 64 nodes node 1 has 48 and 64 for the digit that node 32 ends with, and both of these have node 32.
#[rustfmt::skip]
const IN_64: [(&str, u64); 7] = [
    ("lookup 1 32", arrived(2, 32)),
    ("lookup 1 32 without 48", arrived(2, 32)),
    ("lookup 1 32 without 64", arrived(2, 32)),
    ("lookup 1 32 without 48 64", lost(0, 1)),
    ("lookup 1 64 without 48", arrived(1, 64)),
    ("lookup 1 64 without 64", 21),
    ("lookup 64 64 without 64", 21),
];

fn of_64() -> Vec<u8> {
    let ids: Vec<u32> = (0..64).collect();
    let neighbors = [
        [1, 0, 15, 48],
        [1, 0, 15, 64],
        [48, 1, 1, 32],
        [64, 1, 1, 32],
    ];
    image([16, 2, 2], &ids, &neighbors)
}

pub fn by_hand(a: &dyn Engine, b: &dyn Engine) -> Result<(), String> {
    let chain = surveyed().into_iter().find(|case| case.name == "chain");
    let chain = chain.expect("it is there").image;
    let mut pair = Pair::new(a, b);
    let networks = [
        (five(), &IN_FIVE[..]),
        (chain, &IN_CHAIN),
        (of_64(), &IN_64),
    ];
    for (image, lookups) in networks {
        expect(&mut pair, Call::Read { image }, 0)?;
        for (text, answer) in lookups {
            expect(&mut pair, called(text), *answer)?;
        }
    }
    surveys(&mut pair)
}

fn surveys(pair: &mut Pair) -> Result<(), String> {
    for case in surveyed_without() {
        let failed = case.failed;
        expect(pair, Call::Read { image: case.image }, 0)?;
        expect(pair, Call::Survey { failed }, 0)?;
        let counts = pair.memory().used_counts();
        if *counts != case.counts {
            let (name, expected) = (case.name, case.counts);
            return Err(format!(
                "{name} without {failed:#x}: {counts:?}, not {expected:?}"
            ));
        }
    }
    Ok(())
}
