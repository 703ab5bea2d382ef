//! Joins by themselves into a network that was filled: each comes to what is expected of one where the verdict passes.

use super::networks::settled;
use super::steps::{expect_kept, fill, network, restored};
use crate::compare::Pair;
use crate::engine::Engine;
use crate::met::{meet, Met};
use crate::one_join::{join_alone, some_beginning, PAPER};
use crate::random::{seeds, Rng};
use crate::script::Call;
use crate::second::memory::MOST_NODES;

pub fn joined(a: &dyn Engine, b: &dyn Engine) -> Result<Met, String> {
    let mut met = Met::new();
    let mut pair = Pair::new(a, b);
    for seed in seeds(4_000, 40) {
        let rng = &mut Rng::new(seed);
        let memory = settled(rng, 20);
        restored(&mut pair, &memory)?;
        let joins = fill(&mut pair).and_then(|_| join_some(&mut pair, rng, &mut met));
        joins.map_err(|what| format!("seed {seed}: {what}"))?;
    }
    Ok(met)
}

/// Up to four, as long as there are ids and numbers; after each there is nothing to fill.
fn join_some(pair: &mut Pair, rng: &mut Rng, met: &mut Met) -> Result<(), String> {
    for _ in 0..4 {
        let room = network(pair).count() < MOST_NODES;
        let Some(begin) = some_beginning(rng, pair).filter(|_| room) else {
            return Ok(());
        };
        join_alone(pair, rng, begin, PAPER)?;
        expect_kept(pair, Call::Fill, 0)?;
        meet(met, "joined");
    }
    Ok(())
}
