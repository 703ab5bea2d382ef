//! A small seeded generator, and from it settings, ids, runs, states, images, sets of failed nodes and traces.

mod calls;
mod damage;
mod ids;
mod images;
mod joins;
mod runs;
mod seeds;
mod sets;
mod states;
mod traces;

pub use calls::judging_calls;
pub use damage::damage;
pub use ids::{all_ids, bad_id, bad_number, free_id, free_ids, fresh_id, id, settings};
pub use images::{changed_bytes, changed_records, cuts, damaged_image, head, image, image_2};
pub use images::{image_damages, parts, thinned, with_records, READING, READING_2};
pub use joins::{before_joins, damaged_joins, joins, Joins, JOINS_KINDS};
pub use runs::{run, run_from_built, run_in};
pub use seeds::seeds;
pub use sets::{all_nodes, failed_set};
pub use states::{built_state, reached_state, set_up_built, some_state};
pub use traces::{damaged_trace, no_nodes, part, path_of, paths, trace_file, wandering, Path};

/// Splitmix64.
#[derive(Clone, Debug)]
pub struct Rng(u64);

impl Rng {
    pub fn new(seed: u64) -> Rng {
        Rng(seed)
    }

    pub fn word(&mut self) -> u64 {
        self.0 = self.0.wrapping_add(0x9e37_79b9_7f4a_7c15);
        let mixed = (self.0 ^ (self.0 >> 30)).wrapping_mul(0xbf58_476d_1ce4_e5b9);
        let mixed = (mixed ^ (mixed >> 27)).wrapping_mul(0x94d0_49bb_1331_11eb);
        mixed ^ (mixed >> 31)
    }

    /// 0 to `limit` − 1.
    pub fn below(&mut self, limit: usize) -> usize {
        (self.word() % limit as u64) as usize
    }

    /// Both ends included.
    pub fn between(&mut self, low: u64, high: u64) -> u64 {
        low + self.word() % (high - low + 1)
    }

    /// True once in `times`.
    pub fn once_in(&mut self, times: usize) -> bool {
        self.below(times) == 0
    }

    pub fn pick<T: Copy>(&mut self, from: &[T]) -> T {
        from[self.below(from.len())]
    }
}
