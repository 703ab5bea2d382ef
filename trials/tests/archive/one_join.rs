//! Joins by themselves, one after another and several at once, by the proved engine beside the second one.

use trials::archive::Archive;
use trials::engine::Second;
use trials::one_join::{arriving, every_order, in_turn, last, nothing_else, sample, FEW, PAPER};

#[test]
fn every_order_of_every_join_keeps_small_networks_whole() {
    let searched = every_order(&Archive, FEW, PAPER);
    assert_eq!(searched, every_order(&Second, FEW, PAPER));
    searched.unwrap();
}

#[test]
fn the_64th_join_keeps_the_network_whole() {
    last(&Archive, &Second, PAPER).unwrap();
}

#[test]
fn joins_one_after_another_pass_the_verdict_each_time() {
    in_turn(&Archive, &Second, PAPER).unwrap();
}

#[test]
fn nothing_else_can_be_taken_while_one_node_joins() {
    nothing_else(&Archive, &Second).unwrap();
}

#[test]
fn lookups_to_nodes_of_a_whole_network_arrive_while_several_join() {
    arriving(&Archive, &Second).unwrap();
}

/// No at node 8, level 2, digit 2; the lookup from it is lost at once.
#[test]
fn the_sample_of_joins_at_once_ends_short() {
    let [verdict, lookup] = sample(&Archive, &Second).unwrap();
    assert_eq!(verdict.to_le_bytes(), [0, 0, 8, 2, 2, 0, 0, 0]);
    assert_eq!(lookup.to_le_bytes(), [0, 0, 0, 8, 0, 0, 0, 0]);
}
