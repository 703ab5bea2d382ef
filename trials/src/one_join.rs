//! What document 02 says of one join by itself: where a network passes the verdict, a node joins by any node, and its deliveries come in any order, it
//! settles after at most d + n of them, n being the nodes before it, and the verdict passes again; until then one of its own can be taken. Trials hold
//! engines to this, to what lookups keep while several nodes join, and to where that ends.
//!
//! - `networks`: networks that pass the verdict, grown by joins, and filled at random.
//! - `expected`: what a join comes to, by ids alone.
//! - `every_order`: every id, gateway and order of deliveries in small networks.
//! - `steps`: a join by itself in some order.
//! - `last`: the 64th node.
//! - `in_turn`: joins one after another, up to 64 nodes.
//! - `nothing_else`: while it joins, nothing else can be taken, and calls between change nothing.
//! - `arriving`: lookups from nodes that have attached while several join; `known`: what their entries have.
//! - `at_once`: several joins at once, which may end short; `stalled`: such that now and then do.

mod arriving;
mod at_once;
mod every_order;
mod expected;
mod in_turn;
mod known;
mod last;
mod networks;
mod nothing_else;
mod stalled;
mod steps;

pub use arriving::arriving;
pub use at_once::AtOnce;
pub use every_order::{every_order, Searched, Sizes, FEW, WIDE};
pub use expected::Expected;
pub use in_turn::in_turn;
pub use last::last;
pub use networks::{Origin, CONSISTENT};
pub use nothing_else::nothing_else;
pub use stalled::{sample, sample_script, stalled};
pub use steps::{join_alone, some_beginning};

/// The most deliveries of a join, by the digits and the nodes before it.
pub type Bound = fn(digits: usize, nodes: usize) -> usize;

/// The bound of document 02.
pub const PAPER: Bound = |digits, nodes| digits + nodes;
