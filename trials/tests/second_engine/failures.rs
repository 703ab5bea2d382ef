//! Lookups and surveys around failed nodes by the second engine, and its very hops beside the literal way.

use trials::engine::Second;
use trials::failures::Literal;
use trials::failures::{any_set, by_hand, changed, every_set, in_order, kept, small, survived};
use trials::lent::Lent;
use trials::met::met_enough;
use trials::second::memory::COUNT;
use trials::second::network::Network;
use trials::second::{next_hop, very_hops, NodeSet};

#[test]
fn lookups_and_surveys_are_answered_as_worked_out_by_hand() {
    by_hand(&Second, &Second).unwrap();
}

#[test]
fn the_first_refusal_that_is_true_wins() {
    in_order(&Second, &Second).unwrap();
}

#[test]
fn every_failed_set_of_small_networks_is_answered_as_it_reads() {
    let met = every_set(&Second, &Second).unwrap();
    println!("{met:?}");
    let all = [
        "arrived",
        "arrived, around a failed node",
        "arrived, two passed over at once",
        "lost at once, none left",
        "lost on the way, none left",
        "lost, nobody there",
        "refused",
        "refused, to itself",
    ];
    assert!(met_enough(&met, 300, &all));
}

#[test]
fn numbers_that_no_node_has_mean_nothing_in_any_state() {
    let met = any_set(&Second, &Second).unwrap();
    println!("{met:?}");
    let sets = [
        "nobody",
        "only numbers that no node has",
        "some nodes",
        "some nodes, and numbers that no node has",
        "all nodes",
        "all numbers",
    ];
    let answers = [
        "arrived",
        "lost",
        "no node",
        "refused",
        "by the first of each",
    ];
    assert!(met_enough(&met, 50, &sets) && met_enough(&met, 500, &answers));
}

#[test]
fn fewer_failures_than_an_entry_holds_are_survived_and_so_many_may_not_be() {
    let met = survived(&Second, &Second).unwrap();
    println!("{met:?}");
    let lost = ["lost with 1", "lost with 2", "lost with 3", "lost with 4"];
    assert!(met_enough(&met, 500, &["survived"]) && met_enough(&met, 100, &lost));
}

#[test]
fn later_joins_change_no_lookup_around_failed_nodes() {
    let met = kept(&Second, &Second).unwrap();
    println!("{met:?}");
    let steps = ["begun", "withdrawn", "settled"];
    assert!(met_enough(&met, 20, &steps) && met_enough(&met, 500, &["arrived", "lost"]));
}

/// So the trial before this one would see it.
#[test]
fn later_joins_change_lookups_where_the_verdict_is_no() {
    let [changed, all] = changed(&Second, &Second);
    assert!(2 * changed > all && all > 8, "{changed} of {all}");
}

/// The very hops are the literal way, and the rule answers how many it passed over at each.
#[test]
fn the_very_hops_are_those_of_the_literal_way() {
    let mut whole_entries = 0;
    for (name, memory) in small() {
        for failed in 0..1 << memory.state[COUNT] {
            whole_entries += compared(&name, &memory, failed);
        }
    }
    assert!(whole_entries > 1_000, "{whole_entries}");
}

/// Also answers how often a whole entry was passed over.
fn compared(name: &str, memory: &Lent, failed: u64) -> usize {
    let (literal, set) = (Literal::new(memory, failed), NodeSet(failed));
    let (network, tables) = (Network::decode(memory.used_state()), memory.used_tables());
    let mut whole_entries = 0;
    let left = (1..=network.count()).filter(|&node| !set.contains(node));
    for from in left.clone() {
        for to in left.clone() {
            let way = literal.way(from as u64, to as u64);
            let hops: Vec<usize> = very_hops(&network, tables, [from, to], set).collect();
            let case = format!("{name}, {from} to {to} without {failed:#b}");
            assert!(hops.iter().map(|&hop| hop as u64).eq(way.nodes), "{case}");
            let going = hops.iter().filter(|&&at| at != to);
            let next = going.map(|&at| next_hop(&network, tables, [at, to], set));
            let passed_over = next.clone().map(|next| next.passed_over as u64);
            assert!(passed_over.eq(way.passed_over), "{case}");
            let nowhere = next.filter(|next| next.node.is_none() && next.passed_over > 0);
            whole_entries += nowhere.count();
        }
    }
    whole_entries
}
