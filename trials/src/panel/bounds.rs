//! What a sound state's counts may be.

use std::ops::RangeInclusive;

use super::panel;
use crate::second::memory::{record, State, DIGITS};

/// From the least to the most of each count.
#[derive(Clone, Debug, PartialEq, Eq)]
pub struct Bounds {
    pub requests: RangeInclusive<u64>,
    pub notices: RangeInclusive<u64>,
}

/// No number is right.
const NONE: RangeInclusive<u64> = RangeInclusive::new(1, 0);

impl Bounds {
    /// Document 02's sentences on a node of a state whose target, if it has one, is a node.
    pub fn of(state: &State, node: usize) -> Bounds {
        let [_, status, _, target, _, told, ..] = *record(state, node);
        let told: u64 = (0..64).map(|bit| told >> bit & 1).sum();
        let most_requests = match status {
            1 => matched(state, node, target as usize) + 1,
            2 => matched(state, node, target as usize) + 2,
            _ => state[DIGITS] + 1,
        };
        let notices = match (status, told) {
            (0, _) => 0..=62,
            (3, 0) => NONE,
            (3, _) => told - 1..=told - 1,
            _ => 0..=0,
        };
        Bounds {
            requests: 0..=most_requests,
            notices,
        }
    }

    /// Are the counts that the state has for the node among them?
    pub fn kept(state: &State, node: usize) -> bool {
        let (bounds, panel) = (Bounds::of(state, node), panel(state, node));
        bounds.requests.contains(&panel.requests) && bounds.notices.contains(&panel.notices)
    }
}

/// How many digits of two nodes' ids are equal, from the right.
pub fn matched(state: &State, one: usize, other: usize) -> u64 {
    let (one, other) = (record(state, one)[0], record(state, other)[0]);
    let differs = |&level: &u64| (one ^ other) >> (4 * level) & 15 != 0;
    (0..state[DIGITS]).find(differs).unwrap_or(state[DIGITS])
}

/// Numbers inside, at and beyond both ends, none of them twice; some are huge, and look smaller when cut to fewer bits.
pub fn around(range: &RangeInclusive<u64>) -> Vec<u64> {
    let (least, most) = (*range.start(), *range.end());
    let ends = [least, most].into_iter();
    let near = ends.flat_map(|end| [end.wrapping_sub(1), end, end.wrapping_add(1)]);
    let huge = [
        most + (1 << 8),
        most + (1 << 32),
        1 << 32,
        1 << 63,
        u64::MAX,
    ];
    let mut all: Vec<u64> = near.chain([0, 1]).chain(huge).collect();
    all.sort();
    all.dedup();
    all
}
