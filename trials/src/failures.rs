//! What lookups and surveys around failed nodes must answer, by document 02's sentences alone, and trials that hold two engines to it.
//!
//! - `literal`: the way of a lookup, slow and literal.
//! - `fitting`: what holds of every lookup that is taken.
//! - `by_hand`: networks with lookups and surveys, worked out by hand.
//! - `in_order`: which refusal wins.
//! - `every_set`: every failed set of few nodes, between every two.
//! - `any_set`: random sets in any state, with numbers that no node has.
//! - `survived`: what fewer failed nodes than an entry holds leave of a network that passes the verdict, and what so many may take.
//! - `kept`: lookups that later joins leave alone, and some that they do not.
//! - `cost`: what one failure costs in hops.
//! - `networks`: what these trials go through.

mod any_set;
mod by_hand;
mod cost;
mod every_set;
mod fitting;
mod in_order;
mod kept;
mod literal;
mod networks;
mod survived;

pub use any_set::any_set;
pub use by_hand::by_hand;
pub use cost::{cost, mean};
pub use every_set::every_set;
pub use fitting::fits;
pub use in_order::in_order;
pub use kept::{changed, kept, lookups, stands, step_on, Kept};
pub use literal::{Literal, Way};
pub use networks::{joined, small};
pub use survived::{arrives, survived};
