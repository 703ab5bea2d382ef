//! Trials of the second engine by itself.

#[path = "second_engine/differences.rs"]
mod differences;
#[path = "second_engine/edges.rs"]
mod edges;
#[path = "second_engine/failures.rs"]
mod failures;
#[path = "second_engine/filling.rs"]
mod filling;
#[path = "second_engine/images.rs"]
mod images;
#[path = "second_engine/one_join.rs"]
mod one_join;
#[path = "second_engine/panel.rs"]
mod panel;
#[path = "second_engine/promises.rs"]
mod promises;
#[path = "second_engine/records.rs"]
mod records;
#[path = "second_engine/refusals.rs"]
mod refusals;
#[path = "second_engine/resumed.rs"]
mod resumed;
#[path = "second_engine/runs.rs"]
mod runs;
#[path = "second_engine/scripts.rs"]
mod scripts;
#[path = "second_engine/seen.rs"]
mod seen;
#[path = "second_engine/soundness.rs"]
mod soundness;
#[path = "second_engine/spoiled.rs"]
mod spoiled;
#[path = "second_engine/support.rs"]
mod support;
#[path = "second_engine/survey.rs"]
mod survey;
#[path = "second_engine/traces.rs"]
mod traces;
#[path = "second_engine/withdrawing.rs"]
mod withdrawing;
#[path = "second_engine/wrong_counts.rs"]
mod wrong_counts;
#[path = "second_engine/wrong_failures.rs"]
mod wrong_failures;
#[path = "second_engine/wrong_fill_lists.rs"]
mod wrong_fill_lists;
#[path = "second_engine/wrong_fill_nodes.rs"]
mod wrong_fill_nodes;
#[path = "second_engine/wrong_fill_refusals.rs"]
mod wrong_fill_refusals;
#[path = "second_engine/wrong_fills.rs"]
mod wrong_fills;
#[path = "second_engine/wrong_images.rs"]
mod wrong_images;
#[path = "second_engine/wrong_joins.rs"]
mod wrong_joins;
#[path = "second_engine/wrong_reading.rs"]
mod wrong_reading;
#[path = "second_engine/wrong_trace_counts.rs"]
mod wrong_trace_counts;
#[path = "second_engine/wrong_trace_places.rs"]
mod wrong_trace_places;
#[path = "second_engine/wrong_trace_steps.rs"]
mod wrong_trace_steps;
#[path = "second_engine/wrong_traces.rs"]
mod wrong_traces;
#[path = "second_engine/wrong_turns.rs"]
mod wrong_turns;
#[path = "second_engine/wrong_withdrawals.rs"]
mod wrong_withdrawals;
#[path = "second_engine/wrong_writing.rs"]
mod wrong_writing;
