//! A node's two counts, which document 02 puts on the front panel: copy and wait requests sent, and notices answered.
//!
//! - `history`: the counts by a run's calls and their answers alone.
//! - `bounds`: what they may be in a sound state.
//! - `by_hand`: joins with the counts after each step, worked out by hand.
//! - `literal`: a state with other counts, and whether it is sound, worked out by hand.
//! - `damaged`: states of runs with the counts changed, and whether each is sound.

mod bounds;
mod by_hand;
mod damaged;
mod history;
mod literal;

pub use bounds::{around, matched, Bounds};
pub use by_hand::{by_hand, Join, Step};
pub use damaged::{hold, reached, Held, Kind, Reached, SETTINGS};
pub use history::History;
pub use literal::{ALL_STATUSES, SOUND, UNSOUND};

use crate::second::memory::{record, State, MOST_NODES};
use crate::second::network::Panel;

/// The counts that a state has for a node, 1 to 64.
pub fn panel(state: &State, node: usize) -> Panel {
    let [.., requests, notices] = *record(state, node);
    Panel { requests, notices }
}

/// Those of every number that a node may have; number n's at n − 1.
pub fn panels(state: &State) -> [Panel; MOST_NODES] {
    std::array::from_fn(|before| panel(state, before + 1))
}

/// The place of a node's first count; the second follows it.
pub fn requests_word(node: usize) -> usize {
    8 * node + 6
}
