//! The program replay, run on scripts, beside the words that the second engine's answers make. Its zeroed memory is lent in full.

#[path = "replay_program/edges.rs"]
mod edges;
#[path = "programs/folders.rs"]
mod folders;
#[path = "replay_program/language.rs"]
mod language;
#[path = "replay_program/mangled.rs"]
mod mangled;
#[path = "programs/pipes.rs"]
mod pipes;
#[path = "replay_program/player.rs"]
mod player;
#[path = "replay_program/records.rs"]
mod records;
#[path = "replay_program/scripts.rs"]
mod scripts;
#[path = "replay_program/support.rs"]
mod support;
#[path = "replay_program/words.rs"]
mod words;
