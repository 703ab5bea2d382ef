//! Fillings by the proved engine beside the second one.

use trials::archive::Archive;
use trials::engine::Second;
use trials::fills::{
    among_joins, by_hand, every_entry, every_table, hops, in_order, joined, lengths, most,
};
use trials::fills::{restored, sample};
use trials::random::{damage, seeds, Rng};
use trials::script::Call;
use trials::second::Refusal;

use crate::support::{fenced_too, Both};

#[test]
fn lists_are_those_worked_out_by_hand() {
    fenced_too(by_hand);
}

#[test]
fn the_first_refusal_that_is_true_wins() {
    fenced_too(in_order);
}

#[test]
fn a_list_needs_its_length_and_leaves_the_rest_alone() {
    fenced_too(lengths);
}

#[test]
fn short_entries_are_filled_and_nothing_else_changes() {
    every_entry(&Archive, &Second).unwrap();
}

#[test]
fn every_table_of_small_networks_is_filled() {
    every_table(&Archive, &Second).unwrap();
}

#[test]
fn lookups_that_arrived_keep_their_very_hops() {
    hops(&Archive, &Second).unwrap();
}

#[test]
fn fillings_among_joins_are_refused_or_keep_what_passed() {
    among_joins(&Archive, &Second).unwrap();
}

#[test]
fn joins_at_once_that_end_short_are_filled_and_keep_what_passed() {
    sample(&Archive, &Second).unwrap();
}

#[test]
fn joins_into_filled_networks_leave_nothing_to_fill() {
    joined(&Archive, &Second).unwrap();
}

#[test]
fn images_are_filled_in_their_own_version() {
    restored(&Archive, &Second).unwrap();
}

#[test]
fn the_longest_list_has_21504_bytes() {
    fenced_too(most);
}

/// In any state, sound and settled or not, then after each of some damages: refused where the verdict is, and by the same number.
#[test]
fn fillings_agree_with_the_verdict_in_any_state() {
    let mut met = [0; Refusal::NUMBERS];
    for seed in seeds(2_000, 200) {
        let mut rng = Rng::new(seed);
        let mut both = Both::after_some_run(&mut rng);
        let sound = both.memory().clone();
        for _ in 0..5 {
            let [verdict, filled] = [Call::Verdict, Call::Fill].map(|call| both.call(call) & 0xff);
            assert_eq!(filled, verdict, "seed {seed}");
            met[filled as usize] += 1;
            both.obey(damage(&mut rng, &sound));
        }
    }
    let [taken, unsound, in_flight] = [0, 2, 15].map(|refusal| met[refusal]);
    assert!(taken > 20 && unsound > 200 && in_flight > 50, "{met:?}");
}
