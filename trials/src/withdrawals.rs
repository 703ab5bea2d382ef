//! What a withdrawal must answer and leave, by document 02's sentences alone, and trials that hold two engines to it.
//!
//! - `expected`: its refusal, and the memory after it.
//! - `by_hand`: runs with their answers, worked out by hand.
//! - `in_order`: which refusal wins.
//! - `each_number`: every number that a caller may pass, in any state.
//! - `undone`: a beginning, deliveries of the new node's own, and its withdrawal.
//! - `apart`: the same with deliveries of others among them.
//! - `again`: one number, begun and withdrawn many times.
//! - `last`: the 64th node.
//! - `down`: the highest-numbered node withdrawn, then the next, down to one that has attached.
//! - `steps`: what these trials are made of.

mod again;
mod apart;
mod by_hand;
mod down;
mod each_number;
mod expected;
mod in_order;
mod last;
mod steps;
mod undone;

pub use again::again;
pub use apart::apart;
pub use by_hand::by_hand;
pub use down::down;
pub use each_number::each_number;
pub use expected::is_gone;
pub use in_order::in_order;
pub use last::last;
pub use undone::undone;

pub use crate::met::{met_enough, Met};

use crate::met::meet;
