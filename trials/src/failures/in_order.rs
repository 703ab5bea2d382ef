//! The refusals of lookups and surveys in their order: of all that are true the first wins. A survey has only the first two.

use crate::compare::Pair;
use crate::engine::Engine;
use crate::panel::ALL_STATUSES;
use crate::script::{Call, Script};
use crate::steps::{expect_kept, lend};

/// Words and bytes lent, what stands in an unused word, start, destination, failed nodes, and the answer. There are five nodes.
type Case = (usize, usize, u64, u64, u64, u64, u64);

const ALL_64: u64 = u64::MAX;

#[rustfmt::skip]
const LOOKUPS: [Case; 32] = [
    (0, 0, 1, 0, 0, ALL_64, 1),
    (519, 32_768, 1, 1, 2, 1, 1),
    (520, 32_767, 1, 1, 2, 2, 1),
    (519, 32_768, 0, 1, 1, 1, 1),
    (520, 32_767, 0, 1, 1, 0, 1),
    (520, 32_768, 1, 0, 1, 1, 2),
    (520, 32_768, 1, 1, 2, 1, 2),
    (520, 32_768, 1, 1, 2, 2, 2),
    (521, 32_769, 1, 1, 1, 1, 2),
    (521, 32_769, 1, 1, 1, 0, 2),
    (520, 32_768, 0, 0, 1, 1, 9),
    (520, 32_768, 0, 1, 0, 1, 9),
    (520, 32_768, 0, 1, 0, ALL_64, 9),
    (520, 32_768, 0, 6, 1, 1, 9),
    (520, 32_768, 0, 6, 1, 1 << 5, 9),
    (520, 32_768, 0, 6, 6, 1 << 5, 9),
    (520, 32_768, 0, 1, 6, 1 << 5, 9),
    (520, 32_768, 0, 64, 1, 1 << 63, 9),
    (520, 32_768, 0, 65, 1, 1, 9),
    (520, 32_768, 0, 1, 1 << 63, 1, 9),
    (520, 32_768, 0, u64::MAX, 1, ALL_64, 9),
    (521, 32_769, 0, 257, 1, 1, 9),
    (520, 32_768, 0, 1, 2, 1, 21),
    (520, 32_768, 0, 1, 2, 2, 21),
    (520, 32_768, 0, 1, 2, 3, 21),
    (520, 32_768, 0, 1, 1, 1, 21),
    (520, 32_768, 0, 5, 5, 1 << 4, 21),
    (521, 32_769, 0, 5, 1, 1 << 4, 21),
    (520, 32_768, 0, 3, 4, ALL_64, 21),
    (520, 32_768, 0, 1, 1, !1, 1 << 24 | 1 << 8),
    (520, 32_768, 0, 5, 5, !0x10, 5 << 24 | 1 << 8),
    (521, 32_769, 0, 1, 2, !3, 2 << 24 | 1 << 16 | 1 << 8),
];

/// The same without ends: words and bytes lent, what stands in an unused word, failed nodes, and the answer.
#[rustfmt::skip]
const SURVEYS: [(usize, usize, u64, u64, u64); 10] = [
    (0, 0, 1, ALL_64, 1),
    (519, 32_768, 1, 1, 1),
    (520, 32_767, 0, 0, 1),
    (520, 32_767, 0, ALL_64, 1),
    (520, 32_768, 1, 0, 2),
    (521, 32_769, 1, ALL_64, 2),
    (520, 32_768, 0, 0, 0),
    (520, 32_768, 0, 1, 0),
    (520, 32_768, 0, 0x1f, 0),
    (521, 32_769, 0, ALL_64, 0),
];

pub fn in_order(a: &dyn Engine, b: &dyn Engine) -> Result<(), String> {
    let mut pair = Pair::new(a, b);
    let script: Script = ALL_STATUSES.parse()?;
    for line in &script.lines {
        pair.obey(line)?;
    }
    let whole = pair.memory().clone();
    for (state, tables, unused, from, to, failed, answer) in LOOKUPS {
        let call = Call::Lookup { from, to, failed };
        pair.restore(&whole.state, &whole.tables);
        lend(&mut pair, (state, tables, unused))?;
        expect_kept(&mut pair, call, answer)?;
    }
    for (state, tables, unused, failed, answer) in SURVEYS {
        pair.restore(&whole.state, &whole.tables);
        lend(&mut pair, (state, tables, unused))?;
        expect_kept(&mut pair, Call::Survey { failed }, answer)?;
    }
    Ok(())
}
