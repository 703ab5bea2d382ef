//! Traces beside lookups of the same engine: a node stands in another's entry for it if a lookup finds it there while all others have failed, and then also
//! in the entry for every destination that it matches in more digits than the other does. So lookups tell of every step whether it is allowed.

use super::networks::small;
use crate::engine::Engine;
use crate::lent::Lent;
use crate::met::{meet, Met};
use crate::panel::matched;
use crate::random::{path_of, seeds, some_state, trace_file, Rng};
use crate::script::{set_of, Call};
use crate::second::memory::COUNT;

/// Every path of two and of three nodes in small networks, and some in others.
pub fn by_lookups(a: &dyn Engine, b: &dyn Engine) -> Result<Met, String> {
    let mut met = Met::new();
    for engine in [a, b] {
        for (name, whole) in small() {
            let judged = judge(engine, whole, &every(whole.state[COUNT]), &mut met);
            judged.map_err(|what| format!("{name}, {}: {what}", engine.name()))?;
        }
        for seed in seeds(3_000, 30) {
            let rng = &mut Rng::new(seed);
            let whole = some_state(rng);
            let paths = some(rng, whole.state[COUNT]);
            let judged = judge(engine, &whole, &paths, &mut met);
            judged.map_err(|what| format!("seed {seed}, {}: {what}", engine.name()))?;
        }
    }
    Ok(met)
}

fn every(count: u64) -> Vec<Vec<u64>> {
    let nodes = 1..=count;
    let pairs = nodes
        .clone()
        .flat_map(|from| nodes.clone().map(move |to| vec![from, to]));
    let pairs: Vec<Vec<u64>> = pairs.collect();
    let longer = pairs
        .iter()
        .flat_map(|pair| nodes.clone().map(|to| [&pair[..], &[to]].concat()));
    longer.chain(pairs.iter().cloned()).collect()
}

/// Of any nodes; most are not allowed.
fn some(rng: &mut Rng, count: u64) -> Vec<Vec<u64>> {
    let path = |_| {
        let length = rng.between(2, 4);
        (0..length).map(|_| rng.between(1, count)).collect()
    };
    (0..400).map(path).collect()
}

fn judge(
    engine: &dyn Engine,
    whole: &Lent,
    paths: &[Vec<u64>],
    met: &mut Met,
) -> Result<(), String> {
    let mut memory = whole.clone();
    for path in paths {
        let expected = expected(engine, &mut memory, path);
        let trace = trace_file(&[path_of(path)]);
        let answer = memory.call(engine, &Call::Trace { trace });
        if answer != expected {
            return Err(format!(
                "{path:?} is answered {answer:#x}, by lookups {expected:#x}"
            ));
        }
        meet(
            met,
            if answer == 0 {
                "accepted"
            } else {
                "not allowed"
            },
        );
    }
    Ok(())
}

/// The answer for a path of nodes.
fn expected(engine: &dyn Engine, memory: &mut Lent, path: &[u64]) -> u64 {
    let to = path[path.len() - 1];
    let wrong = (1..).zip(path.windows(2)).find(|(_, step)| {
        let [at, next] = [step[0], step[1]];
        !allowed(engine, memory, [at, next, to])
    });
    wrong.map_or(0, |(step, _): (u64, _)| step << 16 | 0x117)
}

fn allowed(engine: &dyn Engine, memory: &mut Lent, [at, next, to]: [u64; 3]) -> bool {
    let state = memory.used_state();
    let common = |node: u64| matched(state, node as usize, to as usize);
    if common(next) <= common(at) {
        return false;
    }
    let lookup = Call::Lookup {
        from: at,
        to: next,
        failed: !set_of(&[at, next]),
    };
    memory.call(engine, &lookup) == next << 24 | 0x1_0100
}
