//! Images of version 2, which are the whole state of a network with joins under way, and trials that hold two engines to them.
//!
//! - `literal`: what writing must give and reading must answer and leave, slow and literal.
//! - `by_hand`: joins with their images, worked out byte by byte.
//! - `in_order`: which refusal wins.
//! - `stopped`: runs stopped at every point and continued in other memory.
//! - `counted`: the two counts of each node in a run that starts with an image.
//! - `round_trips`: states saved and read back, and images read and written back.
//! - `damaged`: images damaged behind their records.
//! - `unreached`: sound states that no run reaches, and states just past each limit.
//! - `longest`: the longest image.
//! - `networks`: what is saved; `steps`: what these trials are made of.

mod by_hand;
mod counted;
mod damaged;
mod in_order;
mod literal;
mod longest;
mod networks;
mod round_trips;
mod steps;
mod stopped;
mod unreached;

pub use by_hand::by_hand;
pub use damaged::damaged;
pub use in_order::in_order;
pub use literal::{read, read_behind, written, Read, Restored};
pub use longest::longest;
pub use round_trips::round_trips;
pub use stopped::stopped;
pub use unreached::unreached;
