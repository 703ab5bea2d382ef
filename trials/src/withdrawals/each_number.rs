//! The withdrawal of every number that a caller may pass, in any sound state, with just enough memory and with more.

use super::expected::{refusal, without_highest};
use super::steps::{expect, status};
use super::{meet, Met};
use crate::compare::{same_network, Pair};
use crate::engine::Engine;
use crate::lent::{Lent, ALL, EXACT};
use crate::random::{seeds, some_state, Rng};
use crate::script::{Call, Line};
use crate::second::memory::COUNT;

pub fn each_number(a: &dyn Engine, b: &dyn Engine) -> Result<Met, String> {
    let mut met = Met::new();
    let mut pair = Pair::new(a, b);
    for seed in seeds(3_000, 150) {
        let memory = some_state(&mut Rng::new(seed));
        for lend in [ALL, EXACT] {
            pair.obey(&Line::Lend(lend))?;
            for node in numbers(memory.state[COUNT]) {
                pair.restore(&memory.state, &memory.tables);
                let right = is_right(&mut pair, &memory, node);
                right.map_err(|what| format!("seed {seed}, {lend:?}: {what}"))?;
                meet(&mut met, kind(&memory, node));
            }
        }
    }
    Ok(met)
}

/// Every node's, and numbers that no node has; most of these look like a node's when cut to fewer bits.
fn numbers(count: u64) -> Vec<u64> {
    let mut all: Vec<u64> = (0..=count + 1).collect();
    let high = [1 << 8, 1 << 16, 1 << 32, 1 << 63];
    all.extend(high.iter().flat_map(|high| [*high, high + 1, high + count]));
    all.extend([65, u64::MAX]);
    all
}

fn is_right(pair: &mut Pair, memory: &Lent, node: u64) -> Result<(), String> {
    let answer = refusal(memory.used_state(), node);
    expect(pair, Call::Withdraw { node }, answer)?;
    let expected = match answer {
        0 => &without_highest(memory),
        _ => memory,
    };
    same_network(["expected", "found"], expected, pair.memory())
}

fn kind(memory: &Lent, node: u64) -> &'static str {
    let count = memory.state[COUNT];
    if node == 0 || node > count {
        return "no node";
    }
    match (node == count, status(memory, node)) {
        (true, 0) => "highest, in system",
        (true, 1) => "highest, copying",
        (true, 2) => "highest, waiting",
        (true, _) => "highest, notifying",
        (false, 0) => "not highest, in system",
        (false, 1) => "not highest, copying",
        (false, 2) => "not highest, waiting",
        (false, _) => "not highest, notifying",
    }
}
