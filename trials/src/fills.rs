//! What filling short entries must answer, list and leave, by document 02's sentences alone, and trials that hold two engines to it.
//!
//! - `literal`: a filling step by step, slow and literal.
//! - `expected`: what a filling has done, beside the literal one.
//! - `by_hand`: networks with their lists, worked out by hand.
//! - `in_order`: which refusal wins.
//! - `lengths`: memory for the list that is too short, exact and longer.
//! - `every_entry`: networks from empty entries to full ones: the verdict passes, nothing but entries has grown, and a second filling adds nothing.
//! - `every_table`: every table that small networks may have.
//! - `hops`: the very hops of lookups that arrived before.
//! - `sample`: joins at once that end short, and are filled.
//! - `among_joins`: fillings at any point of runs with joins and withdrawals.
//! - `joined`: joins by themselves into networks that were filled.
//! - `restored`: images with counts that are read, filled and written.
//! - `most`: the longest list.
//! - `networks`: what is filled; `steps`: what these trials are made of.

mod among_joins;
mod by_hand;
mod every_entry;
mod every_table;
mod expected;
mod hops;
mod in_order;
mod joined;
mod lengths;
mod literal;
mod most;
mod networks;
mod restored;
mod sample;
mod steps;

pub use among_joins::among_joins;
pub use by_hand::by_hand;
pub use every_entry::every_entry;
pub use every_table::every_table;
pub use expected::{is_filled, with_additions};
pub use hops::hops;
pub use in_order::in_order;
pub use joined::joined;
pub use lengths::lengths;
pub use literal::{filled, Filled};
pub use most::most;
pub use networks::settled;
pub use restored::restored;
pub use sample::sample;
