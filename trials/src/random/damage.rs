//! Damage of a state at one place.

use std::ops::RangeInclusive;

use super::Rng;
use crate::lent::Lent;
use crate::panel::{around, Bounds};
use crate::script::Line;
use crate::second::memory::{COUNT, STATE_WORDS, TABLE_BYTES};

/// A line that changes one word or one byte of a sound state, mostly where a node's things lie.
pub fn damage(rng: &mut Rng, memory: &Lent) -> Line {
    let count = memory.state[COUNT] as usize;
    if rng.once_in(2) {
        let place = match rng.below(8) {
            0 => rng.below(STATE_WORDS),
            1 => rng.below(8),
            _ => 8 + rng.below(8 * count),
        };
        let near = bounds(memory, place).filter(|_| rng.once_in(2));
        let value = match near {
            Some(range) => rng.pick(&around(&range)),
            None => changed_word(rng, memory.state[place], count),
        };
        Line::Word { place, value }
    } else {
        let place = match rng.below(8) {
            0 => rng.below(TABLE_BYTES),
            1 => 512 * rng.below(count) + rng.below(512),
            _ => filled_place(rng, memory, count),
        };
        let value = changed_byte(rng, memory.tables[place], count);
        Line::Byte { place, value }
    }
}

/// What the word may be if it is one of a node's two counts.
fn bounds(memory: &Lent, place: usize) -> Option<RangeInclusive<u64>> {
    let node = place / 8;
    let is_node = (1..=memory.state[COUNT] as usize).contains(&node);
    let bounds = is_node.then(|| Bounds::of(memory.used_state(), node))?;
    match place % 8 {
        6 => Some(bounds.requests),
        7 => Some(bounds.notices),
        _ => None,
    }
}

/// A filled slot or the one after it, in a node's table.
fn filled_place(rng: &mut Rng, memory: &Lent, count: usize) -> usize {
    let filled = |&place: &usize| memory.tables[place] != 0;
    let filled: Vec<usize> = (0..512 * count).filter(filled).collect();
    rng.pick(&filled) + rng.below(2)
}

fn changed_word(rng: &mut Rng, word: u64, count: usize) -> u64 {
    let near = [
        word ^ 1,
        word ^ 2,
        word.wrapping_add(1),
        word.wrapping_sub(1),
    ];
    match rng.below(8) {
        0..=2 => rng.pick(&near),
        3 => word ^ (1 << rng.below(64)),
        4 => word ^ (1 << rng.below(count)),
        5 => rng.between(0, count as u64 + 1),
        6 => rng.between(0, 4),
        _ => rng.word(),
    }
}

fn changed_byte(rng: &mut Rng, byte: u8, count: usize) -> u8 {
    match rng.below(4) {
        0 => 0,
        1 => byte ^ (1 << rng.below(8)),
        2 => rng.below(count + 2) as u8,
        _ => rng.word() as u8,
    }
}
