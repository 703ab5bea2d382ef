//! The proved engine beside the second one: every answer and every byte after every call.

#[path = "archive/edges.rs"]
mod edges;
#[path = "archive/failures.rs"]
mod failures;
#[path = "archive/fenced.rs"]
mod fenced;
#[path = "archive/filling.rs"]
mod filling;
#[path = "archive/founding.rs"]
mod founding;
#[path = "archive/full.rs"]
mod full;
#[path = "archive/images.rs"]
mod images;
#[path = "archive/judging.rs"]
mod judging;
#[path = "archive/one_join.rs"]
mod one_join;
#[path = "archive/orders.rs"]
mod orders;
#[path = "archive/panel.rs"]
mod panel;
#[path = "archive/records.rs"]
mod records;
#[path = "archive/resumed.rs"]
mod resumed;
#[path = "archive/runs.rs"]
mod runs;
#[path = "archive/sample_traces.rs"]
mod sample_traces;
#[path = "archive/support.rs"]
mod support;
#[path = "archive/survey.rs"]
mod survey;
#[path = "archive/traces.rs"]
mod traces;
#[path = "archive/withdrawing.rs"]
mod withdrawing;
#[path = "archive/writing.rs"]
mod writing;
