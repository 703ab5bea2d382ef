//! Memory for the list: where it is too short nothing changes, and where it is longer the bytes past the list stay.

use super::literal::filled;
use super::networks::settled;
use super::steps::{expect, expect_kept, lend_list, restored};
use crate::compare::Pair;
use crate::engine::Engine;
use crate::lent::ALL;
use crate::met::{meet, Met};
use crate::random::{seeds, Rng};
use crate::script::Call;
use crate::second::MOST_ADDED_BYTES;

pub fn lengths(a: &dyn Engine, b: &dyn Engine) -> Result<Met, String> {
    let mut met = Met::new();
    let mut pair = Pair::new(a, b);
    for seed in seeds(1_000, 60) {
        let memory = settled(&mut Rng::new(seed), 64);
        let expected = filled(&memory);
        let bytes = 4 * expected.list.len();
        for out in around(bytes) {
            restored(&mut pair, &memory)?;
            lend_list(&mut pair, out)?;
            let answered = if out < bytes {
                meet(&mut met, "too short");
                expect_kept(&mut pair, Call::Fill, 16)
            } else {
                meet(&mut met, if out == bytes { "exact" } else { "longer" });
                expect(&mut pair, Call::Fill, expected.answer)
            };
            answered.map_err(|what| format!("seed {seed}, {out} of {bytes}: {what}"))?;
        }
    }
    Ok(met)
}

/// None, short, exact and longer, each once and rising.
fn around(bytes: usize) -> Vec<usize> {
    let short = [
        0,
        1,
        bytes / 2,
        bytes.saturating_sub(4),
        bytes.saturating_sub(1),
    ];
    let enough = [bytes, bytes + 1, bytes + 4, MOST_ADDED_BYTES, ALL.out];
    let mut all = [short, enough].concat();
    all.sort();
    all.dedup();
    all
}
