//! Images of version 2 by the second engine.

use trials::engine::Second;
use trials::met::met_enough;
use trials::resumed::{by_hand, damaged, in_order, longest, round_trips, stopped, unreached};

#[test]
fn images_are_those_worked_out_by_hand() {
    by_hand(&Second, &Second).unwrap();
}

#[test]
fn the_first_refusal_that_is_true_wins() {
    in_order(&Second, &Second).unwrap();
}

#[test]
fn runs_stopped_at_every_point_go_on_as_without_a_stop() {
    let met = stopped(&Second, &Second).unwrap();
    println!("{met:?}");
    let all = [
        "copying",
        "waiting",
        "notifying",
        "continued",
        "begun after the stop",
        "added to restored counts",
    ];
    assert!(met_enough(&met, 200, &all));
}

#[test]
fn states_are_restored_whole_and_images_written_back() {
    let met = round_trips(&Second, &Second).unwrap();
    println!("{met:?}");
    let all = [
        "copying",
        "waiting",
        "notifying",
        "version 1",
        "version 2",
        "refused 15",
    ];
    assert!(met_enough(&met, 60, &all));
}

#[test]
fn damaged_images_are_answered_as_they_read() {
    let met = damaged(&Second, &Second).unwrap();
    println!("{met:?}");
    let all = ["taken", "6", "24", "cut or longer", "damaged twice"];
    assert!(met_enough(&met, 500, &all));
    assert!(met_enough(
        &met,
        100,
        &["another number of counts", "another refusal"]
    ));
}

#[test]
fn sound_states_that_no_run_reaches_are_taken_and_others_refused() {
    let met = unreached(&Second, &Second).unwrap();
    println!("{met:?}");
    assert!(met_enough(&met, 100, &["taken", "refused"]));
}

#[test]
fn the_longest_image_has_25226_bytes() {
    let full = longest(&Second, &Second).unwrap();
    println!("{full} of 64 nodes");
    assert!(full > 1, "{full}");
}
