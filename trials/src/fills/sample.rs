//! Several joins at once that end short: the lookup from 8 to 10 is lost, and arrives once a filling has put 10 where it must stand. Lookups of each point
//! at which the verdict passed, with any nodes failed, keep their very hops through all of it.

use super::steps::{call, expect, expect_kept, fill};
use crate::compare::Pair;
use crate::engine::Engine;
use crate::failures::{arrives, lookups, stands, Kept};
use crate::met::{meet, Met};
use crate::one_join::{join_alone, sample_script, some_beginning, CONSISTENT, PAPER};
use crate::random::Rng;
use crate::script::Call;

/// Of node 8, the id of which is 0100, for those that end with 200: 10 alone, 0200.
const LIST: [[u8; 4]; 1] = [[8, 2, 2, 10]];

pub fn sample(a: &dyn Engine, b: &dyn Engine) -> Result<Met, String> {
    let (rng, met) = (&mut Rng::new(1), &mut Met::new());
    let pair = &mut Pair::new(a, b);
    let kept = played(pair, rng, met)?;
    let (from, to, failed) = (8, 10, 0);
    let looked_up = Call::Lookup { from, to, failed };
    expect(pair, looked_up.clone(), from << 24)?;
    let list = fill(pair)?;
    let answer = call(pair, looked_up)?;
    if list != LIST || !arrives(answer, to) {
        return Err(format!("the sample gets {list:?}, then {answer:#x}"));
    }
    expect_kept(pair, Call::Fill, 0)?;
    all_stand([a, b], pair, &kept, met)?;
    for _ in 0..3 {
        let begin = some_beginning(rng, pair).expect("there are more ids");
        join_alone(pair, rng, begin, PAPER)?;
        expect_kept(pair, Call::Fill, 0)?;
    }
    all_stand([a, b], pair, &kept, met)?;
    Ok(met.clone())
}

/// Plays the lines; the lookups of each point at which the verdict passes.
fn played(pair: &mut Pair, rng: &mut Rng, met: &mut Met) -> Result<Vec<Kept>, String> {
    let mut kept = vec![];
    for line in &sample_script()?.lines {
        pair.obey(line)?;
        if call(pair, Call::Verdict)? == CONSISTENT {
            meet(met, "passed");
            kept.extend(lookups(rng, pair.memory()));
        }
    }
    Ok(kept)
}

fn all_stand(
    engines: [&dyn Engine; 2],
    pair: &Pair,
    kept: &[Kept],
    met: &mut Met,
) -> Result<(), String> {
    let mut memory = pair.memory().clone();
    for kept in kept {
        stands(engines, &mut memory, kept)?;
        meet(met, if kept.way.arrived { "arrived" } else { "lost" });
    }
    Ok(())
}
