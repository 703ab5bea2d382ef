//! Joins by themselves, one after another and several at once, by the second engine.

use trials::engine::Second;
use trials::met::met_enough;
use trials::one_join::{arriving, every_order, in_turn, last, nothing_else, sample, stalled};
use trials::one_join::{AtOnce, Searched, FEW, PAPER, WIDE};

/// Each join comes to n + 1 deliveries at most, and some join does, whatever d is: d + n is reached where d is 1, and missed by d − 1 elsewhere.
fn most_is_one_more_than_the_nodes(searched: &Searched) {
    println!("{searched:?}");
    for (&(digits, nodes), &most) in &searched.most {
        assert_eq!(most, nodes + 1, "{digits} digits, {nodes} nodes");
        assert_eq!(PAPER(digits, nodes) - most, digits - 1);
    }
}

#[test]
fn every_order_of_every_join_keeps_small_networks_whole() {
    let searched = every_order(&Second, FEW, PAPER).unwrap();
    most_is_one_more_than_the_nodes(&searched);
    let Searched { joins, points, .. } = searched;
    assert!(joins > 10_000 && points > 100_000, "{joins}, {points}");
}

#[test]
fn every_order_of_every_join_keeps_networks_with_many_ids_whole() {
    let searched = every_order(&Second, WIDE, PAPER).unwrap();
    most_is_one_more_than_the_nodes(&searched);
    let Searched { joins, points, .. } = searched;
    assert!(joins > 50_000 && points > 500_000, "{joins}, {points}");
}

/// So no join is cut off by the lower bound, at any number of digits.
#[test]
fn no_join_takes_more_deliveries_than_one_more_than_the_nodes() {
    every_order(&Second, FEW, |_, nodes| nodes + 1).unwrap();
    last(&Second, &Second, |_, nodes| nodes + 1).unwrap();
}

/// With one digit d + n is n + 1.
#[test]
fn a_bound_of_one_delivery_less_is_seen_to_break() {
    assert!(every_order(&Second, FEW, |digits, nodes| digits + nodes - 1).is_err());
    assert!(every_order(&Second, FEW, |_, nodes| nodes).is_err());
    assert!(last(&Second, &Second, |_, nodes| nodes).is_err());
}

#[test]
fn the_64th_join_keeps_the_network_whole() {
    let longest = last(&Second, &Second, PAPER).unwrap();
    println!("{longest:?}");
    let most = longest.values().map(|join| join.deliveries()).max();
    assert_eq!((longest.len(), most), (32, Some(64)));
}

#[test]
fn joins_one_after_another_pass_the_verdict_each_time() {
    let [joins, full] = in_turn(&Second, &Second, PAPER).unwrap();
    assert!(joins > 400 && full > 4, "{joins} joins, {full} full");
}

#[test]
fn nothing_else_can_be_taken_while_one_node_joins() {
    let met = nothing_else(&Second, &Second).unwrap();
    println!("{met:?}");
    let all = ["its own", "looked"];
    assert!(met_enough(&met, 100, &all) && met_enough(&met, 5_000, &["not its own"]));
}

#[test]
fn lookups_to_nodes_of_a_whole_network_arrive_while_several_join() {
    let met = arriving(&Second, &Second).unwrap();
    println!("{met:?}");
    let all = [
        "of that point",
        "settled since",
        "notifying",
        "waiting",
        "around failed nodes",
    ];
    let between = ["passed again", "withdrawn"];
    assert!(met_enough(&met, 5_000, &all) && met_enough(&met, 50, &between));
}

/// So the trial before this one needs what it says of the start.
#[test]
fn a_lookup_from_a_node_that_copies_may_be_lost() {
    let met = arriving(&Second, &Second).unwrap();
    assert!(met_enough(
        &met,
        1_000,
        &["copying, lost", "copying, arrived"]
    ));
}

/// No at node 8, level 2, digit 2; the lookup from it is lost at once.
#[test]
fn the_sample_of_joins_at_once_ends_short() {
    let [verdict, lookup] = sample(&Second, &Second).unwrap();
    assert_eq!(verdict.to_le_bytes(), [0, 0, 8, 2, 2, 0, 0, 0]);
    assert_eq!(lookup.to_le_bytes(), [0, 0, 0, 8, 0, 0, 0, 0]);
}

/// In about one of 4,000 runs.
#[test]
fn runs_of_the_nodes_of_the_sample_now_and_then_end_short() {
    let short: Vec<u64> = (6_950..7_050).filter(|&seed| !stalled(seed)).collect();
    assert_eq!(short, [6_987]);
}

/// None of these does, and none of 100,000 of each kind in any order that the example `at_once` plays.
#[test]
fn joins_at_once_in_any_order_seldom_end_short() {
    for depth in 1..=4 {
        let kind = AtOnce {
            settings: [3, 4, depth],
            nodes: 10,
            pace: 2,
        };
        assert!((0..200).all(|seed| kind.ends_whole(seed)), "{kind:?}");
    }
}
