//! The second engine: document 01, and the tickets of document 02 that have landed, in plain Rust, written without sight of the first engine.
//!
//! A call judges the lent memory where it lies, decodes what it needs into a `Network` and `Table`s, works on
//! those, and encodes them back only when nothing was refused.

mod answers;
mod beginning;
mod consistency;
mod delivering;
mod filling;
mod founding;
mod joins;
mod learning;
mod lookup;
pub mod memory;
pub mod network;
mod node_set;
mod reading;
mod refusal;
mod settings;
mod soundness;
mod survey;
pub mod table;
mod trace;
mod version;
mod withdrawing;
mod writing;

pub use answers::{
    Answer, BeginAnswer, Counts, DeliverAnswer, FillAnswer, FoundAnswer, LookupAnswer, ReadAnswer,
    SurveyAnswer, TraceAnswer, VerdictAnswer, WithdrawAnswer, WriteAnswer, LOST,
};
pub use beginning::begin;
pub use consistency::verdict;
pub use delivering::deliver;
pub use filling::{fill, MOST_ADDED_BYTES};
pub use founding::found;
pub use lookup::{lookup, next_hop, very_hops, NextHop};
pub use node_set::NodeSet;
pub use reading::{read, LONGEST_READ};
pub use refusal::Refusal;
pub use settings::{digit, Settings};
pub use soundness::{lent_and_sound, sound};
pub use survey::survey;
pub use trace::{trace, LONGEST_PATH};
pub use withdrawing::withdraw;
pub use writing::{write, LONGEST_IMAGE, LONGEST_OF_VERSION_1};
