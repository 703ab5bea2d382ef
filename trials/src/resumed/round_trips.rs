//! States saved and read into other memory, and images read and written back in their own version.

use super::steps::{meet_statuses, read, taken, write};
use crate::engine::Engine;
use crate::lent::Lent;
use crate::met::{meet, Met};
use crate::random::{image, seeds, some_state, Rng};
use crate::script::Call;
use crate::second::memory::{COUNT, DIGITS};

pub fn round_trips(a: &dyn Engine, b: &dyn Engine) -> Result<Met, String> {
    let mut met = Met::new();
    for seed in seeds(9_000, 300) {
        let rng = &mut Rng::new(seed);
        let state = some_state(rng);
        let settled = settled_state(rng, a)?;
        for (memory, noise) in [(state, seed), (settled, seed + 1)] {
            for engine in [a, b] {
                let whole = whole(engine, &memory, noise, &mut met);
                whole.map_err(|what| format!("seed {seed}: {what}"))?;
                let first = first(engine, &memory, noise, &mut met);
                first.map_err(|what| format!("seed {seed}: {what}"))?;
            }
        }
    }
    Ok(met)
}

/// The network of an image of version 1, with counts.
fn settled_state(rng: &mut Rng, engine: &dyn Engine) -> Result<Lent, String> {
    let mut memory = Lent::noise();
    let image = image(rng);
    let answer = memory.call(engine, &Call::Read { image });
    if answer != 0 {
        return Err(format!("a whole image is refused: {answer:#x}"));
    }
    for node in 1..=memory.state[COUNT] as usize {
        memory.state[8 * node + 6] = rng.between(0, memory.state[DIGITS] + 1);
        memory.state[8 * node + 7] = rng.between(0, 62);
    }
    Ok(memory)
}

/// Version 2 restores every word and byte, and is written back.
fn whole(engine: &dyn Engine, memory: &Lent, noise: u64, met: &mut Met) -> Result<(), String> {
    let image = write(engine, memory, 2)?;
    let expected = taken(memory.used_state(), memory.used_tables());
    let mut other = Lent::of_noise(noise);
    read(engine, &mut other, &image, &expected)?;
    if write(engine, &other, 2)? != image {
        return Err("version 2 is written back otherwise".into());
    }
    meet_statuses(met, memory.used_state());
    meet(met, "version 2");
    Ok(())
}

/// Version 1 is refused where a node is not in system; else it restores all but the counts, and is written back.
fn first(engine: &dyn Engine, memory: &Lent, noise: u64, met: &mut Met) -> Result<(), String> {
    let mut state = *memory.used_state();
    let nodes = 1..=state[COUNT] as usize;
    if nodes.clone().any(|node| state[8 * node + 1] != 0) {
        let answer = memory.clone().call(engine, &Call::WRITE_1);
        meet(met, "refused 15");
        return match answer {
            15 => Ok(()),
            _ => Err(format!("version 1 of joins under way: {answer:#x}")),
        };
    }
    let image = write(engine, memory, 1)?;
    for node in nodes {
        state[8 * node + 6..][..2].fill(0);
    }
    let expected = taken(&state, memory.used_tables());
    let mut other = Lent::of_noise(noise);
    read(engine, &mut other, &image, &expected)?;
    meet(met, "version 1");
    match write(engine, &other, 1)? == image {
        true => Ok(()),
        false => Err("version 1 is written back otherwise".into()),
    }
}
