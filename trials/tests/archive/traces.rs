//! Traces checked by the proved engine beside the second one.

use trials::archive::Archive;
use trials::engine::Second;
use trials::traces::{accepted, by_hand, by_lookups, damaged, every_file, every_lookup};
use trials::traces::{every_path, faulty, in_order, most};

use crate::support::fenced_too;

#[test]
fn traces_are_answered_as_worked_out_by_hand() {
    fenced_too(by_hand);
}

#[test]
fn the_first_refusal_that_is_true_wins() {
    fenced_too(in_order);
}

#[test]
fn every_short_file_is_answered_as_it_reads() {
    every_file(&Archive, &Second).unwrap();
}

#[test]
fn every_short_path_of_small_networks_is_answered_as_it_reads() {
    every_path(&Archive, &Second).unwrap();
}

#[test]
fn the_way_of_every_lookup_in_small_networks_is_accepted() {
    every_lookup(&Archive, &Second).unwrap();
}

#[test]
fn lookups_tell_which_paths_are_allowed() {
    by_lookups(&Archive, &Second).unwrap();
}

#[test]
fn allowed_paths_are_accepted_in_any_state() {
    accepted(&Archive, &Second).unwrap();
}

#[test]
fn faults_are_named_by_number_path_and_place() {
    faulty(&Archive, &Second).unwrap();
}

#[test]
fn damaged_files_are_answered_as_they_read() {
    damaged(&Archive, &Second).unwrap();
}

#[test]
fn a_fault_in_any_of_255_paths_is_named() {
    fenced_too(most);
}
