//! Withdrawals by the second engine.

use trials::engine::Second;
use trials::plain::plain_sound;
use trials::random::{seeds, some_state, Rng};
use trials::withdrawals::{again, apart, by_hand, down, each_number, in_order, last};
use trials::withdrawals::{met_enough, undone};

use crate::support::Trial;

#[test]
fn withdrawals_are_answered_as_worked_out_by_hand() {
    by_hand(&Second, &Second).unwrap();
}

#[test]
fn the_first_refusal_that_is_true_wins() {
    in_order(&Second, &Second).unwrap();
}

#[test]
fn the_64th_node_is_withdrawn() {
    last(&Second, &Second).unwrap();
}

#[test]
fn each_number_is_answered_in_any_state() {
    let met = each_number(&Second, &Second).unwrap();
    println!("{met:?}");
    let nodes = [
        "highest, in system",
        "highest, copying",
        "highest, waiting",
        "highest, notifying",
        "not highest, in system",
        "not highest, copying",
        "not highest, waiting",
        "not highest, notifying",
    ];
    assert!(met_enough(&met, 10, &nodes) && met_enough(&met, 1_000, &["no node"]));
}

#[test]
fn a_withdrawal_undoes_a_beginning() {
    let met = undone(&Second, &Second).unwrap();
    println!("{met:?}");
    let all = ["copying", "waiting", "copied", "held"];
    assert!(met_enough(&met, 10, &all));
}

#[test]
fn a_withdrawal_after_deliveries_of_others_changes_only_its_own() {
    let met = apart(&Second, &Second).unwrap();
    println!("{met:?}");
    let all = [
        "copying",
        "waiting",
        "its own",
        "of others",
        "others attach",
    ];
    assert!(met_enough(&met, 20, &all) && met_enough(&met, 1, &["sent on"]));
}

#[test]
fn counts_start_again_with_each_beginning() {
    let met = again(&Second, &Second).unwrap();
    assert_eq!(met["withdrawn"], 3 * (2 + 3 + 4 + 5 + 6 + 7 + 8 + 9));
    assert_eq!(met["after d + 1 requests"], 3 * 8);
}

#[test]
fn joins_are_withdrawn_down_to_one_that_has_attached() {
    let met = down(&Second, &Second).unwrap();
    println!("{met:?}");
    assert!(met_enough(&met, 60, &["withdrawn"]) && met_enough(&met, 3, &["four in a row"]));
}

/// By the clauses, slow and literal.
#[test]
fn a_withdrawn_state_is_sound() {
    let mut withdrawn = 0;
    for seed in seeds(4_000, 200) {
        let memory = some_state(&mut Rng::new(seed));
        let mut trial = Trial { memory };
        while trial.withdraw(trial.network().count() as u64).refusal == 0 {
            let (state, tables) = (trial.memory.used_state(), trial.memory.used_tables());
            assert!(plain_sound(state, tables), "seed {seed}");
            withdrawn += 1;
        }
    }
    assert!(withdrawn > 100, "{withdrawn}");
}
