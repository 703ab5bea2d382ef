//! The refusals of a filling in their order: of all that are true the first wins.

use super::steps::{expect, expect_kept};
use crate::compare::Pair;
use crate::engine::{Engine, Second};
use crate::lent::{Lent, ALL};
use crate::panel::ALL_STATUSES;
use crate::paper::{e1_short, E1};
use crate::script::{Call, Lend, Line, Script};

/// Words and bytes lent, and for the list, what stands in an unused word, and the answer.
type Case = (usize, usize, usize, u64, u64);

/// Of nodes that join.
const JOINING: [Case; 11] = [
    (0, 0, 0, 1, 1),
    (519, 32_768, 0, 1, 1),
    (520, 32_767, 0, 1, 1),
    (519, 32_768, 21_504, 0, 1),
    (520, 32_767, 21_504, 0, 1),
    (520, 32_768, 0, 1, 2),
    (521, 32_769, 21_504, 1, 2),
    (520, 32_768, 0, 0, 15),
    (520, 32_768, 3, 0, 15),
    (520, 32_768, 21_504, 0, 15),
    (521, 32_769, 21_505, 0, 15),
];

/// Of short E1, which gets one node.
const SHORT: [Case; 12] = [
    (519, 32_768, 0, 1, 1),
    (520, 32_767, 3, 0, 1),
    (519, 32_768, 4, 0, 1),
    (520, 32_768, 0, 1, 2),
    (520, 32_768, 3, 1, 2),
    (520, 32_768, 4, 1, 2),
    (520, 32_768, 0, 0, 16),
    (520, 32_768, 1, 0, 16),
    (521, 32_769, 3, 0, 16),
    (520, 32_768, 4, 0, 0x100),
    (521, 32_769, 5, 0, 0x100),
    (520, 32_768, 21_504, 0, 0x100),
];

/// Of E1, which gets none.
const WHOLE: [Case; 4] = [
    (520, 32_767, 0, 0, 1),
    (520, 32_768, 0, 1, 2),
    (520, 32_768, 0, 0, 0),
    (521, 32_769, 21_504, 0, 0),
];

pub fn in_order(a: &dyn Engine, b: &dyn Engine) -> Result<(), String> {
    let joining: Script = ALL_STATUSES.parse()?;
    let read = |image| Line::Call(Call::Read { image });
    let networks = [
        (joining.lines, &JOINING[..]),
        (vec![read(e1_short())], &SHORT),
        (vec![read(E1.to_vec())], &WHOLE),
    ];
    let mut pair = Pair::new(a, b);
    for (lines, cases) in networks {
        let mut memory = Lent::noise();
        for line in &lines {
            memory.obey(&Second, line);
        }
        for case in cases {
            pair.restore(&memory.state, &memory.tables);
            is_answered(&mut pair, *case).map_err(|what| format!("{case:?}: {what}"))?;
        }
    }
    Ok(())
}

fn is_answered(pair: &mut Pair, case: Case) -> Result<(), String> {
    let (state, tables, out, unused, answer) = case;
    let (place, value) = (7, unused);
    pair.obey(&Line::Word { place, value })?;
    pair.obey(&Line::Lend(Lend { state, tables, out }))?;
    match answer {
        0x100 => expect(pair, Call::Fill, answer)?,
        _ => expect_kept(pair, Call::Fill, answer)?,
    }
    pair.obey(&Line::Lend(ALL)).map(drop)
}
