//! The longest list: in the network of the longest image every entry has its owner alone or nobody. No other network gets more.

use super::networks::settled;
use super::steps::{expect, expect_kept, fill, image, lend_list, restored};
use crate::by_hand;
use crate::compare::Pair;
use crate::engine::{Engine, Second};
use crate::lent::Lent;
use crate::random::{seeds, thinned, Rng};
use crate::script::Call;
use crate::second::memory::COUNT;

/// Of each of 64 nodes 84.
const BYTES: usize = 21_504;

/// Answers how many other networks had 64 nodes.
pub fn most(a: &dyn Engine, b: &dyn Engine) -> Result<usize, String> {
    let longest = by_hand::longest();
    let alone = thinned(&mut Rng::new(0), &longest, 1);
    let mut memory = Lent::noise();
    memory.call(&Second, &Call::Read { image: alone });
    let pair = &mut Pair::new(a, b);
    restored(pair, &memory)?;
    for out in [0, BYTES - 4, BYTES - 1] {
        lend_list(pair, out)?;
        expect_kept(pair, Call::Fill, 16)?;
    }
    lend_list(pair, BYTES)?;
    expect(pair, Call::Fill, 64 * 84 << 8)?;
    lend_list(pair, longest.len())?;
    expect_kept(pair, Call::Fill, 0)?;
    if image(pair, 1)?.len() != longest.len() {
        return Err("it is not filled to the longest image".into());
    }
    none_longer(pair)
}

fn none_longer(pair: &mut Pair) -> Result<usize, String> {
    let mut full = 0;
    for seed in seeds(6_000, 30) {
        let memory = settled(&mut Rng::new(seed), 64);
        restored(pair, &memory)?;
        lend_list(pair, BYTES)?;
        fill(pair).map_err(|what| format!("seed {seed}: {what}"))?;
        full += usize::from(memory.state[COUNT] == 64);
    }
    Ok(full)
}
