//! Withdrawals by the proved engine beside the second one.

use trials::archive::Archive;
use trials::engine::Second;
use trials::withdrawals::{again, apart, by_hand, down, each_number, in_order, last, undone};

use crate::support::fenced_too;

#[test]
fn withdrawals_are_answered_as_worked_out_by_hand() {
    fenced_too(by_hand);
}

#[test]
fn the_first_refusal_that_is_true_wins() {
    fenced_too(in_order);
}

#[test]
fn the_64th_node_is_withdrawn() {
    fenced_too(last);
}

#[test]
fn each_number_is_answered_in_any_state() {
    each_number(&Archive, &Second).unwrap();
}

#[test]
fn a_withdrawal_undoes_a_beginning() {
    undone(&Archive, &Second).unwrap();
}

#[test]
fn a_withdrawal_after_deliveries_of_others_changes_only_its_own() {
    apart(&Archive, &Second).unwrap();
}

#[test]
fn counts_start_again_with_each_beginning() {
    again(&Archive, &Second).unwrap();
}

#[test]
fn joins_are_withdrawn_down_to_one_that_has_attached() {
    down(&Archive, &Second).unwrap();
}
