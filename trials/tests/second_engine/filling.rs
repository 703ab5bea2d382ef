//! Fillings by the second engine.

use trials::engine::Second;
use trials::fills::{
    among_joins, by_hand, every_entry, every_table, hops, in_order, joined, lengths, most,
};
use trials::fills::{restored, sample, settled};
use trials::met::met_enough;
use trials::plain::plain_sound;
use trials::random::{seeds, Rng};

use crate::support::Trial;

#[test]
fn lists_are_those_worked_out_by_hand() {
    by_hand(&Second, &Second).unwrap();
}

#[test]
fn the_first_refusal_that_is_true_wins() {
    in_order(&Second, &Second).unwrap();
}

#[test]
fn a_list_needs_its_length_and_leaves_the_rest_alone() {
    let met = lengths(&Second, &Second).unwrap();
    println!("{met:?}");
    assert!(met_enough(&met, 50, &["too short", "exact", "longer"]));
}

#[test]
fn short_entries_are_filled_and_nothing_else_changes() {
    let met = every_entry(&Second, &Second).unwrap();
    println!("{met:?}");
    let all = ["nothing added", "few added", "many added"];
    assert!(met_enough(&met, 20, &all) && met_enough(&met, 3, &["more than 999 added"]));
    assert!(met_enough(&met, 20, &["passed before", "short before"]));
}

/// 6 to the power of 4, twice 8 times 8 times 5, and 4 to the power of 3.
#[test]
fn every_table_of_small_networks_is_filled() {
    let met = every_table(&Second, &Second).unwrap();
    println!("{met:?}");
    assert_eq!(met.values().sum::<usize>(), 1_296 + 2 * 320 + 64);
    assert_eq!(met["nothing added"], 16 + 2 * 2 + 1);
}

#[test]
fn lookups_that_arrived_keep_their_very_hops() {
    let met = hops(&Second, &Second).unwrap();
    println!("{met:?}");
    let all = ["arrived before", "arrives now", "still lost"];
    assert!(met_enough(&met, 500, &all));
}

#[test]
fn fillings_among_joins_are_refused_or_keep_what_passed() {
    let met = among_joins(&Second, &Second).unwrap();
    println!("{met:?}");
    let all = ["refused 15", "begun", "withdrawn", "settled", "few added"];
    assert!(met_enough(&met, 5, &all));
}

#[test]
fn joins_at_once_that_end_short_are_filled_and_keep_what_passed() {
    let met = sample(&Second, &Second).unwrap();
    println!("{met:?}");
    assert!(met_enough(&met, 4, &["passed"]) && met_enough(&met, 200, &["arrived"]));
}

#[test]
fn joins_into_filled_networks_leave_nothing_to_fill() {
    let met = joined(&Second, &Second).unwrap();
    println!("{met:?}");
    assert!(met_enough(&met, 50, &["joined"]));
}

#[test]
fn images_are_filled_in_their_own_version() {
    let met = restored(&Second, &Second).unwrap();
    println!("{met:?}");
    let all = ["version 1", "version 2", "refused 15"];
    assert!(met_enough(&met, 20, &all));
}

#[test]
fn the_longest_list_has_21504_bytes() {
    let full = most(&Second, &Second).unwrap();
    println!("{full} of 64 nodes");
    assert!(full > 1, "{full}");
}

/// By the clauses, slow and literal.
#[test]
fn a_filled_state_is_sound() {
    for seed in seeds(7_000, 60) {
        let memory = settled(&mut Rng::new(seed), 64);
        let mut trial = Trial { memory };
        assert_eq!(trial.fill().refusal, 0, "seed {seed}");
        let (state, tables) = (trial.memory.used_state(), trial.memory.used_tables());
        assert!(plain_sound(state, tables), "seed {seed}");
    }
}
