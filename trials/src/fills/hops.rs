//! A lookup that arrived before a filling, with any nodes failed, has the same very hops after it; and while fewer nodes have failed than entries hold,
//! every lookup then arrives.

use super::networks::settled;
use super::steps::{fill, restored};
use crate::compare::Pair;
use crate::engine::Engine;
use crate::failures::{lookups, stands, Kept, Literal};
use crate::lent::Lent;
use crate::met::{meet, Met};
use crate::random::{all_nodes, seeds, Rng};
use crate::second::memory::{COUNT, DEPTH};

pub fn hops(a: &dyn Engine, b: &dyn Engine) -> Result<Met, String> {
    let mut met = Met::new();
    let mut pair = Pair::new(a, b);
    for seed in seeds(2_000, 40) {
        let rng = &mut Rng::new(seed);
        let most = rng.pick(&[6, 6, 64]);
        let memory = settled(rng, most);
        let all = lookups(rng, &memory);
        restored(&mut pair, &memory)?;
        fill(&mut pair)?;
        let mut after = pair.memory().clone();
        for kept in all {
            let is_right = is_right([a, b], &mut after, &kept, &mut met);
            is_right.map_err(|what| format!("seed {seed}: {what}"))?;
        }
    }
    Ok(met)
}

fn is_right(
    engines: [&dyn Engine; 2],
    after: &mut Lent,
    kept: &Kept,
    met: &mut Met,
) -> Result<(), String> {
    if kept.way.arrived {
        meet(met, "arrived before");
        return stands(engines, after, kept);
    }
    let nodes = all_nodes(after.state[COUNT] as usize);
    let few = u64::from((kept.failed & nodes).count_ones()) < after.state[DEPTH];
    let way = Literal::new(after, kept.failed).way(kept.from, kept.to);
    if few && !way.arrived {
        return Err(format!("{} to {} goes {way:?}", kept.from, kept.to));
    }
    meet(
        met,
        if way.arrived {
            "arrives now"
        } else {
            "still lost"
        },
    );
    let now = Kept { way, ..*kept };
    stands(engines, after, &now)
}
