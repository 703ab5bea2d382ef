//! Images of version 2 by the proved engine beside the second one.

use trials::archive::Archive;
use trials::engine::Second;
use trials::resumed::{by_hand, damaged, in_order, longest, round_trips, stopped, unreached};

use crate::support::fenced_too;

#[test]
fn images_are_those_worked_out_by_hand() {
    fenced_too(by_hand);
}

#[test]
fn the_first_refusal_that_is_true_wins() {
    fenced_too(in_order);
}

/// What either engine saves, either reads.
#[test]
fn runs_stopped_at_every_point_go_on_as_without_a_stop() {
    stopped(&Archive, &Second).unwrap();
}

#[test]
fn states_are_restored_whole_and_images_written_back() {
    round_trips(&Archive, &Second).unwrap();
}

#[test]
fn damaged_images_are_answered_as_they_read() {
    damaged(&Archive, &Second).unwrap();
}

#[test]
fn sound_states_that_no_run_reaches_are_taken_and_others_refused() {
    unreached(&Archive, &Second).unwrap();
}

#[test]
fn the_longest_image_has_25226_bytes() {
    fenced_too(longest);
}
