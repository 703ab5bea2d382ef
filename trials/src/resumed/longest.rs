//! The longest image of version 2: the longest of version 1, with every node notifying.

use super::literal::read_behind;
use super::steps::{both_read, holding, taken, write};
use crate::by_hand;
use crate::compare::Pair;
use crate::engine::{Engine, Second};
use crate::lent::{Lent, ALL};
use crate::random::{all_nodes, built_state, seeds, Rng};
use crate::script::{set_of, Call, Lend, Line};
use crate::second::memory::{COUNT, DIGITS};
use crate::steps::expect;

/// What the longest has, and no written one more.
const BYTES: usize = 25_226;

/// Each node asks the next one and has told all others, and each count is at its limit.
fn all_notifying() -> Lent {
    let mut memory = Lent::noise();
    let image = by_hand::longest();
    memory.call(&Second, &Call::Read { image });
    for node in 1..=64 {
        let next = node % 64 + 1;
        let (asked, own) = (set_of(&[next]), set_of(&[node]));
        let told = all_nodes(64) & !asked & !own;
        let record = [3, 0, 0, asked, told, memory.state[DIGITS] + 1, 61];
        memory.state[8 * node as usize + 1..][..7].copy_from_slice(&record);
    }
    memory
}

pub fn longest(a: &dyn Engine, b: &dyn Engine) -> Result<usize, String> {
    let whole = all_notifying();
    let (state, tables) = (whole.used_state(), whole.used_tables());
    let mut pair = Pair::new(a, b);
    pair.restore(state, tables);
    for (out, answer) in [(BYTES - 1, 16), (BYTES, (BYTES as u64) << 8)] {
        pair.obey(&Line::Lend(Lend { out, ..ALL }))?;
        expect(&mut pair, Call::WRITE_2, answer)?;
    }
    let image = pair.memory().out[..BYTES].to_vec();
    let restored = taken(state, tables);
    both_read([a, b], &mut Lent::of_noise(3), &image, &restored)?;
    let longer = [&image[..], &[0]].concat();
    both_read(
        [a, b],
        &mut Lent::of_noise(3),
        &longer,
        &read_behind(&longer),
    )?;
    none_longer([a, b])
}

/// Other states have shorter images; answers how many of 64 nodes there were.
fn none_longer(engines: [&dyn Engine; 2]) -> Result<usize, String> {
    let mut full = 0;
    for seed in seeds(5_000, 250) {
        let (state, tables) = built_state(&mut Rng::new(seed));
        for engine in engines {
            let length = write(engine, &holding(&state, &tables, seed), 2)?.len();
            if length >= BYTES {
                return Err(format!("seed {seed}: {length} bytes"));
            }
        }
        full += usize::from(state[COUNT] == 64);
    }
    Ok(full)
}
