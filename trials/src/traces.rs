//! What checking a trace must answer, by document 02's sentences alone, and trials that hold two engines to it.
//!
//! - `literal`: the answer, slow and literal.
//! - `by_hand`: files with their answers, worked out by hand.
//! - `in_order`: which refusal wins.
//! - `every_file`: every short file of a few bytes.
//! - `every_path`: every short path in small networks.
//! - `every_lookup`: the way of every lookup in small networks, around every failed set.
//! - `by_lookups`: paths judged by lookups alone.
//! - `accepted`: many allowed paths in any state.
//! - `faults`: one fault of each kind in a path.
//! - `faulty`: files with one fault and with two, and with a wrong end.
//! - `damaged`: files with any byte changed, cut anywhere, and longer.
//! - `most`: as many paths as a file holds.
//! - `long_ways`: 64 nodes with many different ways of nine nodes.
//! - `networks`: what the faults go into.
//! - `steps`: what these trials are made of.

mod accepted;
mod by_hand;
mod by_lookups;
mod damaged;
mod every_file;
mod every_lookup;
mod every_path;
mod faults;
mod faulty;
mod in_order;
mod literal;
mod long_ways;
mod most;
mod networks;
mod steps;

pub use accepted::accepted;
pub use by_hand::by_hand;
pub use by_lookups::by_lookups;
pub use damaged::damaged;
pub use every_file::every_file;
pub use every_lookup::every_lookup;
pub use every_path::every_path;
pub use faults::KINDS;
pub use faulty::faulty;
pub use in_order::in_order;
pub use literal::{judged, passed, Passed};
pub use long_ways::long_ways;
pub use most::most;
