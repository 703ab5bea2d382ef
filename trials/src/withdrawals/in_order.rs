//! The refusals of a withdrawal in their order: of all that are true the first wins.

use super::steps::expect;
use crate::compare::{same_network, Pair};
use crate::engine::Engine;
use crate::panel::ALL_STATUSES;
use crate::script::{Call, Script};
use crate::steps::lend;

/// Words and bytes lent, what stands in an unused word, the node, and the answer. Of five nodes the highest copies.
const OF_FIVE: [(usize, usize, u64, u64, u64); 18] = [
    (0, 0, 1, 0, 1),
    (519, 32_768, 1, 0, 1),
    (520, 32_767, 1, 6, 1),
    (519, 32_768, 0, 1, 1),
    (520, 32_767, 0, 5, 1),
    (520, 32_768, 1, 0, 2),
    (520, 32_768, 1, 6, 2),
    (520, 32_768, 1, 1, 2),
    (521, 32_769, 1, 5, 2),
    (520, 32_768, 0, 0, 9),
    (520, 32_768, 0, 6, 9),
    (521, 32_769, 0, u64::MAX, 9),
    (520, 32_768, 0, 1, 19),
    (520, 32_768, 0, 3, 19),
    (521, 32_769, 0, 4, 19),
    (520, 32_768, 0, 5, 0),
    (521, 32_768, 0, 5, 0),
    (520, 32_769, 0, 5, 0),
];

/// The same of three nodes: the highest notifies.
const OF_THREE: [(usize, usize, u64, u64, u64); 8] = [
    (519, 32_768, 0, 3, 1),
    (520, 32_767, 1, 3, 1),
    (520, 32_768, 1, 3, 2),
    (520, 32_768, 0, 4, 9),
    (520, 32_768, 0, 1, 19),
    (520, 32_768, 0, 2, 19),
    (520, 32_768, 0, 3, 20),
    (521, 32_769, 0, 3, 20),
];

pub fn in_order(a: &dyn Engine, b: &dyn Engine) -> Result<(), String> {
    let script: Script = ALL_STATUSES.parse()?;
    let of_five = OF_FIVE.map(|case| (script.lines.len(), case));
    let of_three = OF_THREE.map(|case| (7, case));
    for (lines, (state, tables, unused, node, answer)) in of_five.into_iter().chain(of_three) {
        let mut pair = Pair::new(a, b);
        for line in &script.lines[..lines] {
            pair.obey(line)?;
        }
        lend(&mut pair, (state, tables, unused))?;
        let before = pair.memory().clone();
        expect(&mut pair, Call::Withdraw { node }, answer)
            .map_err(|what| format!("{state} words, {tables} bytes, {unused} unused: {what}"))?;
        if answer != 0 {
            same_network(["before", "refused"], &before, pair.memory())?;
        }
    }
    Ok(())
}
