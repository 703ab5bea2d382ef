//! The refusals of a trace in their order: of all that are true the first wins, and joins under way are none.

use crate::compare::Pair;
use crate::engine::Engine;
use crate::panel::ALL_STATUSES;
use crate::script::{Call, Script};
use crate::steps::{expect_kept, lend};

/// Words and bytes lent, what stands in an unused word, the file, and the answer. There are five nodes, of which two are in system; node 1 has node 3
/// for its way to it, and nodes 1 and 2 have each other.
type Case = (usize, usize, u64, &'static [u8], u64);

/// Files that are good, empty, without a right count, with a number that is no node's, and with a step that is not allowed.
const GOOD: &[u8] = &[2, 2, 1, 2, 1, 5];
const NONE: &[u8] = &[0];
const EMPTY: &[u8] = &[];
const COUNTS: &[u8] = &[2, 2, 1, 2, 0];
const NO_NODE: &[u8] = &[2, 2, 1, 2, 1, 6];
const STEP: &[u8] = &[2, 1, 5, 2, 2, 2];
/// 22 behind 23 and 9, and behind 23; 9 behind 23.
const ALL_THREE: &[u8] = &[3, 2, 1, 1, 1, 6, 0];
const FIRST_AND_LAST: &[u8] = &[2, 2, 1, 1, 0];
const LAST_TWO: &[u8] = &[3, 2, 1, 1, 1, 6, 1, 5];

const CASES: [Case; 48] = [
    (0, 0, 1, GOOD, 1),
    (0, 0, 1, EMPTY, 1),
    (519, 32_768, 0, GOOD, 1),
    (519, 32_768, 0, NONE, 1),
    (519, 32_768, 0, EMPTY, 1),
    (519, 32_768, 1, COUNTS, 1),
    (519, 32_768, 0, NO_NODE, 1),
    (519, 32_768, 0, STEP, 1),
    (520, 32_767, 0, GOOD, 1),
    (520, 32_767, 0, NONE, 1),
    (520, 32_767, 0, EMPTY, 1),
    (520, 32_767, 0, COUNTS, 1),
    (520, 32_767, 1, NO_NODE, 1),
    (520, 32_767, 0, STEP, 1),
    (520, 32_767, 1, ALL_THREE, 1),
    (520, 32_768, 1, GOOD, 2),
    (520, 32_768, 1, NONE, 2),
    (520, 32_768, 1, EMPTY, 2),
    (520, 32_768, 1, COUNTS, 2),
    (520, 32_768, 1, NO_NODE, 2),
    (520, 32_768, 1, STEP, 2),
    (520, 32_768, 1, ALL_THREE, 2),
    (520, 32_768, 1, LAST_TWO, 2),
    (521, 32_769, 1, GOOD, 2),
    (521, 32_769, 1, COUNTS, 2),
    (521, 32_769, 1, NO_NODE, 2),
    (521, 32_769, 1, STEP, 2),
    (520, 32_768, 0, EMPTY, 22),
    (520, 32_768, 0, COUNTS, 22),
    (520, 32_768, 0, ALL_THREE, 22),
    (521, 32_769, 0, ALL_THREE, 22),
    (520, 32_768, 0, FIRST_AND_LAST, 22),
    (521, 32_769, 0, FIRST_AND_LAST, 22),
    (520, 32_768, 0, NO_NODE, 0x1_0209),
    (521, 32_769, 0, NO_NODE, 0x1_0209),
    (520, 32_768, 0, LAST_TWO, 0x1_0209),
    (521, 32_769, 0, LAST_TWO, 0x1_0209),
    (520, 32_768, 0, STEP, 0x1_0217),
    (521, 32_769, 0, STEP, 0x1_0217),
    (520, 32_768, 0, GOOD, 0),
    (521, 32_768, 0, GOOD, 0),
    (520, 32_769, 0, GOOD, 0),
    (521, 32_769, 0, GOOD, 0),
    (520, 32_768, 0, NONE, 0),
    (521, 32_769, 0, NONE, 0),
    // A notifying node in a table, and nodes that copy and wait as starts and destinations.
    (520, 32_768, 0, &[3, 2, 1, 3, 1, 4, 1, 5], 0),
    (520, 32_768, 0, &[1, 2, 1, 4], 0x1_0117),
    (520, 32_768, 0, &[1, 2, 5, 1], 0x1_0117),
];

pub fn in_order(a: &dyn Engine, b: &dyn Engine) -> Result<(), String> {
    let mut pair = Pair::new(a, b);
    let script: Script = ALL_STATUSES.parse()?;
    for line in &script.lines {
        pair.obey(line)?;
    }
    for (state, tables, unused, trace, answer) in CASES {
        lend(&mut pair, (state, tables, unused))?;
        let trace = trace.to_vec();
        expect_kept(&mut pair, Call::Trace { trace }, answer)
            .map_err(|what| format!("{unused} unused, {what}"))?;
    }
    Ok(())
}
