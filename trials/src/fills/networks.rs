//! Networks in which all are settled, from entries that have only their owners to full ones.

use crate::engine::Second;
use crate::lent::Lent;
use crate::one_join::Origin;
use crate::random::{all_ids, built_state, settings, thinned, Rng};
use crate::script::Call;
use crate::second::memory::{COUNT, DIGITS, MOST_NODES, STATE_WORDS, TABLE_BYTES};

/// Nobody is left out so rarely.
const NEVER: usize = usize::MAX;

/// A network of any settings and up to so many nodes, with any counts: whole, with neighbors left out, or with any neighbors.
pub fn settled(rng: &mut Rng, most: usize) -> Lent {
    let mut memory = if rng.once_in(4) {
        built(rng)
    } else {
        let left_out = rng.pick(&[1, 2, 2, 4, 16, NEVER]);
        thin(rng, most, left_out)
    };
    for node in 1..=memory.state[COUNT] as usize {
        memory.state[8 * node + 6] = rng.between(0, memory.state[DIGITS] + 1);
        memory.state[8 * node + 7] = rng.between(0, 62);
    }
    memory
}

/// A network that passes the verdict, with each neighbor left out once in so many times.
fn thin(rng: &mut Rng, most: usize, left_out: usize) -> Lent {
    let chosen = settings(rng);
    let ids = all_ids(chosen).take(most).count();
    let nodes = rng
        .pick(&[1, 2, 3, 5, 9, 20, 40, MOST_NODES, MOST_NODES])
        .min(ids);
    let chosen = [chosen.base(), chosen.digits(), chosen.depth()].map(|setting| setting as u64);
    let mut memory = Origin::Filled.network(rng, chosen, nodes);
    let length = (memory.call(&Second, &Call::WRITE_1) >> 8) as usize;
    let image = thinned(rng, &memory.out[..length], left_out);
    assert_eq!(memory.call(&Second, &Call::Read { image }), 0);
    memory
}

/// Tables built from the clauses of soundness alone; whoever joins has settled.
fn built(rng: &mut Rng) -> Lent {
    let (state, tables) = built_state(rng);
    let mut memory = Lent::noise();
    memory.state[..STATE_WORDS].copy_from_slice(&state[..]);
    memory.tables[..TABLE_BYTES].copy_from_slice(&tables[..]);
    for node in 1..=state[COUNT] as usize {
        memory.state[8 * node + 1..8 * node + 6].fill(0);
    }
    memory
}
