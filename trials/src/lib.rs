//! Trials of overlay engines: a second engine, and what holds two engines against each other.
//!
//! - `second`: the second engine, written from documents 01 and 02 alone.
//! - `archive`: the proved engine.
//! - `fenced`: the proved engine on memory beside a page without access.
//! - `engine`: what every engine looks like from outside.
//! - `script`: calls as lines of text, for failure reports and for running a case again.
//! - `lent`: the memory that a caller lends, with guard space around what is lent.
//! - `compare`: runs one script on two engines and finds the first difference.
//! - `steps`: steps that trials of two engines are made of; `met`: how often a trial has met something.
//! - `surveys`: what holds of every survey.
//! - `failures`: what holds of lookups and surveys around failed nodes, and trials of it.
//! - `withdrawals`: what holds of every withdrawal, and trials of it.
//! - `fills`: what filling short entries must do, and trials of it.
//! - `traces`: what checking a trace must answer, and trials of it.
//! - `one_join`: what holds of a single join into a network that passes the verdict, and of several at once, and trials of it.
//! - `panel`: what holds of each node's two counts.
//! - `plain`: soundness, and the sentences about records, slow and literal.
//! - `paper`: the images of document 01.
//! - `by_hand`: other images, some with the counts of their survey.
//! - `records`: images with bad records, and what reading must answer to each.
//! - `resumed`: images with joins under way: what writing and reading them must do, and trials of it.
//! - `random`: seeded settings, ids, runs, states, images and traces, good and bad, and sets of failed nodes.
//!
//! `TRIALS_COUNT=50 TRIALS_SEED=1000000 cargo test --release` plays 50 times as many cases, with other seeds.

pub mod archive;
pub mod by_hand;
pub mod compare;
pub mod engine;
pub mod failures;
pub mod fenced;
pub mod fills;
pub mod lent;
pub mod met;
pub mod one_join;
pub mod panel;
pub mod paper;
pub mod plain;
pub mod random;
pub mod records;
pub mod resumed;
pub mod script;
pub mod second;
pub mod steps;
pub mod surveys;
pub mod traces;
pub mod withdrawals;
