//! Joins one after another, from a founding up to 64 nodes or to all that there are ids for: the verdict passes after each.

use super::networks::of;
use super::steps::{join_alone, some_beginning};
use super::Bound;
use crate::compare::Pair;
use crate::engine::Engine;
use crate::random::{id, seeds, Rng};
use crate::script::Call;
use crate::second::memory::MOST_NODES;
use crate::steps::{expect, network};

const SETTINGS: [[u64; 3]; 8] = [
    [2, 8, 1],
    [16, 2, 2],
    [4, 4, 3],
    [2, 6, 4],
    [16, 8, 4],
    [3, 4, 2],
    [2, 5, 3],
    [16, 1, 1],
];

/// Answers how many joins there were, and in how many networks that are full.
pub fn in_turn(a: &dyn Engine, b: &dyn Engine, bound: Bound) -> Result<[usize; 2], String> {
    let (mut joins, mut full) = (0, 0);
    for (seed, settings) in seeds(6_000, 8).zip(SETTINGS.into_iter().cycle()) {
        let rng = &mut Rng::new(seed);
        let id = id(rng, of(settings));
        let mut pair = Pair::new(a, b);
        expect(&mut pair, Call::Found { settings, id }, 0)?;
        while network(&pair).count() < MOST_NODES {
            let Some(beginning) = some_beginning(rng, &pair) else {
                break;
            };
            let joined = join_alone(&mut pair, rng, beginning, bound);
            joined.map_err(|what| format!("seed {seed}, {settings:?}, {beginning:x?}: {what}"))?;
            joins += 1;
        }
        full += usize::from(network(&pair).count() == MOST_NODES);
    }
    Ok([joins, full])
}
