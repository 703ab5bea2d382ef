//! What these trials are made of.

use super::literal::{written, Read, Restored};
use crate::engine::Engine;
use crate::lent::{Lent, ALL};
use crate::met::{meet, Met};
use crate::script::Call;
use crate::second::memory::{State, Tables, COUNT, STATE_WORDS, TABLE_BYTES};

/// Memory with this state in it and noise behind it, lent in full.
pub fn holding(state: &State, tables: &Tables, noise: u64) -> Lent {
    let mut memory = Lent::of_noise(noise);
    memory.state[..STATE_WORDS].copy_from_slice(state);
    memory.tables[..TABLE_BYTES].copy_from_slice(tables);
    memory
}

/// What reading an image of this state must do.
pub fn taken(state: &State, tables: &Tables) -> Read {
    Read {
        answer: 0,
        restored: Some(Restored {
            state: Box::new(*state),
            tables: Box::new(*tables),
        }),
    }
}

/// The image that an engine writes of a sound state, which it leaves alone; it is what the state's words and bytes say.
pub fn write(engine: &dyn Engine, memory: &Lent, version: u8) -> Result<Vec<u8>, String> {
    let mut after = memory.clone();
    after.lend = ALL;
    let call = Call::Write {
        version: version.into(),
    };
    let answer = after.call(engine, &call);
    let expected = written(memory.used_state(), memory.used_tables(), version);
    let length = (answer >> 8) as usize;
    let name = engine.name();
    if answer & 0xff != 0 || length != expected.len() || after.out[..length] != expected {
        let out = &after.out[..length.min(after.out.len())];
        return Err(format!(
            "{name}, {call}: {answer:#x}, {out:02x?}, not {expected:02x?}"
        ));
    }
    after.out[..length].copy_from_slice(&memory.out[..length]);
    after.lend = memory.lend;
    match after == *memory {
        true => Ok(expected),
        false => Err(format!("{name}, {call} changes more than its output")),
    }
}

/// An engine reads the image over what stands in the memory: the answer is the expected one, a taken image leaves what it must, and nothing else changes.
pub fn read(
    engine: &dyn Engine,
    memory: &mut Lent,
    image: &[u8],
    expected: &Read,
) -> Result<(), String> {
    let mut left = memory.clone();
    if let Some(restored) = &expected.restored {
        left.state[..STATE_WORDS].copy_from_slice(&restored.state[..]);
        left.tables[..TABLE_BYTES].copy_from_slice(&restored.tables[..]);
    }
    let call = Call::Read {
        image: image.to_vec(),
    };
    let (answer, name) = (memory.call(engine, &call), engine.name());
    if answer != expected.answer {
        let expected = expected.answer;
        return Err(format!("{name}, {call}: {answer:#x}, not {expected:#x}"));
    }
    match *memory == left {
        true => Ok(()),
        false => Err(format!("{name}, {call}: {answer:#x}, leaves other memory")),
    }
}

/// Both engines read it over the same memory, which is afterwards as it was.
pub fn both_read(
    engines: [&dyn Engine; 2],
    memory: &mut Lent,
    image: &[u8],
    expected: &Read,
) -> Result<(), String> {
    let before = expected.restored.is_some().then(|| memory.clone());
    for engine in engines {
        read(engine, memory, image, expected)?;
        if let Some(before) = &before {
            memory.clone_from(before);
        }
    }
    Ok(())
}

/// Of each status that a state's nodes have, once.
pub fn meet_statuses(met: &mut Met, state: &State) {
    let names = ["settled", "copying", "waiting", "notifying"];
    for (status, name) in (0..).zip(names) {
        let mut nodes = 1..=state[COUNT] as usize;
        if nodes.any(|node| state[8 * node + 1] == status) {
            meet(met, name);
        }
    }
}
