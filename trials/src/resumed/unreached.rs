//! Images of sound states that no run reaches, which are taken, and of states just past each limit, which are refused 24.

use super::literal::{written, Read, Restored};
use super::networks::all_statuses;
use super::steps::{both_read, holding, write};
use crate::engine::Engine;
use crate::lent::Lent;
use crate::met::{meet, Met};
use crate::panel::{Bounds, SOUND, UNSOUND};
use crate::random::{built_state, seeds, Rng};
use crate::second::memory::{State, Tables, COUNT};

/// Words and table bytes that are changed at once.
type Changes = (&'static [(usize, u64)], &'static [(usize, u8)]);

/// Of the network of all statuses. Node n's status, attach level, target, asked and told set, and its two counts are the words from 8n + 1 on.
#[rustfmt::skip]
const TAKEN: [Changes; 14] = [
    (&[], &[]),
    (&[(26, 0)], &[]), // a lower attach level
    (&[(28, 1), (29, 2)], &[]), // node 1 asked and node 2 told
    (&[(35, 1)], &[]), // waiting for a settled node
    (&[(35, 2)], &[]),
    (&[(43, 1)], &[]), // copying from another
    (&[(41, 2)], &[]), // waiting in place of copying, with one request
    (&[(41, 2), (43, 3)], &[]),
    (&[(46, 0)], &[]), // copying without a request
    (&[(33, 1), (35, 2), (38, 2)], &[]), // copying from a node that it matches in one digit, with two requests
    // Node 3 in the table of node 5 at level 0, below its attach level.
    (&[], &[(2_048, 3)]),
    // Nobody is settled: nodes 1 and 2 notify, and 5 waits.
    (&[(9, 3), (12, 2), (13, 4), (17, 3), (20, 4), (21, 1), (41, 2)], &[]),
    // The same with every count at its limit.
    (&[(9, 3), (12, 2), (13, 4), (14, 4), (17, 3), (20, 4), (21, 1), (22, 4), (30, 4), (38, 4), (41, 2), (46, 2)], &[]),
    // All settled, with the counts of before.
    (&[(25, 0), (26, 0), (28, 0), (29, 0), (33, 0), (35, 0), (41, 0), (43, 0)], &[]),
];

#[rustfmt::skip]
const REFUSED: [Changes; 48] = [
    (&[(25, 1)], &[]), (&[(25, 2)], &[]), (&[(25, 4)], &[]), (&[(25, 255)], &[]), // a notifying node's status
    (&[(26, 3)], &[]), (&[(26, 255)], &[]), (&[(26, 2)], &[]), // its attach level; node 2 matches it in one digit
    (&[(27, 1)], &[]), // its target
    (&[(28, 0)], &[]), (&[(28, 1)], &[]), (&[(28, 3)], &[]), (&[(28, 6)], &[]), (&[(28, 10)], &[]), (&[(28, 18)], &[]), (&[(28, 34)], &[]), // whom it asks
    (&[(28, 2 | 1 << 63)], &[]), (&[(26, 1), (28, 16)], &[]),
    (&[(29, 0)], &[]), (&[(29, 2)], &[]), (&[(29, 4)], &[]), (&[(29, 8)], &[]), (&[(29, 16)], &[]), (&[(29, 32)], &[]), (&[(29, 1 << 63)], &[]), // told
    (&[(31, 1)], &[]), (&[(29, 3)], &[]),
    (&[(34, 1)], &[]), (&[(35, 0)], &[]), (&[(35, 4)], &[]), (&[(35, 5)], &[]), (&[(35, 6)], &[]), (&[(36, 1)], &[]), (&[(37, 1)], &[]), // waiting
    (&[(38, 5)], &[]), (&[(39, 1)], &[]),
    (&[(42, 1)], &[]), (&[(43, 0)], &[]), (&[(43, 3)], &[]), (&[(43, 4)], &[]), (&[(43, 5)], &[]), (&[(43, 6)], &[]), // copying
    (&[(44, 1)], &[]), (&[(45, 1)], &[]),
    (&[(46, 2)], &[]), (&[(47, 1)], &[]),
    (&[(33, 1), (35, 2), (38, 3)], &[]), // one request more than a copying node's
    (&[], &[(4, 5)]), // a copying node in the table of node 1, and a waiting one in that of node 5
    (&[], &[(2_048, 4)]),
];

pub fn unreached(a: &dyn Engine, b: &dyn Engine) -> Result<Met, String> {
    let mut met = Met::new();
    let whole = all_statuses();
    let lists = [(&TAKEN[..], true), (&REFUSED, false)];
    for (changes, sound) in lists {
        for &(words, bytes) in changes {
            let judged = judge([a, b], &changed(&whole, words, bytes), sound, &mut met);
            judged.map_err(|what| format!("{words:?}, {bytes:?}: {what}"))?;
        }
    }
    for (list, sound) in [(&SOUND[..], true), (&UNSOUND, false)] {
        let in_bytes = |words: &&&[(usize, u64)]| words.iter().all(|&(place, n)| fits(place, n));
        for words in list.iter().filter(in_bytes) {
            let judged = judge([a, b], &changed(&whole, words, &[]), sound, &mut met);
            judged.map_err(|what| format!("{words:?}: {what}"))?;
        }
    }
    for seed in seeds(4_000, 150) {
        let judged = at_limits([a, b], seed, &mut met);
        judged.map_err(|what| format!("seed {seed}: {what}"))?;
    }
    Ok(met)
}

/// Can an image have this word? A set has eight bytes, a number that no node has none, and everything else one.
fn fits(place: usize, value: u64) -> bool {
    place < 48 && (matches!(place % 8, 4 | 5) || value < 256)
}

fn changed(whole: &Lent, words: &[(usize, u64)], bytes: &[(usize, u8)]) -> Lent {
    let mut memory = whole.clone();
    words.iter().for_each(|&(place, n)| memory.state[place] = n);
    bytes
        .iter()
        .for_each(|&(place, n)| memory.tables[place] = n);
    memory
}

/// Its image is written, where it is sound, and taken; else refused 24.
fn judge(
    engines: [&dyn Engine; 2],
    memory: &Lent,
    sound: bool,
    met: &mut Met,
) -> Result<(), String> {
    let (state, tables) = (memory.used_state(), memory.used_tables());
    let image = written(state, tables, 2);
    for engine in engines.into_iter().filter(|_| sound) {
        write(engine, memory, 2)?;
    }
    meet(met, if sound { "taken" } else { "refused" });
    both_read(
        engines,
        &mut Lent::of_noise(9),
        &image,
        &expected(state, tables, sound),
    )
}

fn expected(state: &State, tables: &Tables, sound: bool) -> Read {
    let restored = Restored {
        state: Box::new(*state),
        tables: Box::new(*tables),
    };
    Read {
        answer: if sound { 0 } else { 24 },
        restored: sound.then_some(restored),
    }
}

/// Each count of some nodes of a built state at its limits, and past them.
fn at_limits(engines: [&dyn Engine; 2], seed: u64, met: &mut Met) -> Result<(), String> {
    let rng = &mut Rng::new(seed);
    let (state, tables) = built_state(rng);
    let whole = holding(&state, &tables, seed);
    for node in (0..4).map(|_| rng.between(1, state[COUNT]) as usize) {
        let Bounds { requests, notices } = Bounds::of(&state, node);
        for (place, range) in [(8 * node + 6, requests), (8 * node + 7, notices)] {
            let (least, most) = (*range.start(), *range.end());
            for value in [least.wrapping_sub(1), least, most, most + 1, 255] {
                if value < 256 {
                    let memory = changed(&whole, &[(place, value)], &[]);
                    judge(engines, &memory, range.contains(&value), met)?;
                }
            }
        }
    }
    Ok(())
}
