//! Traces checked by the second engine.

use trials::engine::Second;
use trials::met::met_enough;
use trials::random::trace_file;
use trials::second::memory::COUNT;
use trials::second::TraceAnswer;
use trials::traces::{accepted, by_hand, by_lookups, damaged, every_file, every_lookup};
use trials::traces::{every_path, faulty, in_order, long_ways, most, KINDS};

use crate::support::Trial;

#[test]
fn traces_are_answered_as_worked_out_by_hand() {
    by_hand(&Second, &Second).unwrap();
}

#[test]
fn the_first_refusal_that_is_true_wins() {
    in_order(&Second, &Second).unwrap();
}

#[test]
fn every_short_file_is_answered_as_it_reads() {
    let met = every_file(&Second, &Second).unwrap();
    println!("{met:?}");
    let all = ["accepted", "counts", "no node", "not allowed"];
    assert!(met_enough(&met, 50, &all));
}

#[test]
fn every_short_path_of_small_networks_is_answered_as_it_reads() {
    let met = every_path(&Second, &Second).unwrap();
    println!("{met:?}");
    let all = [
        "accepted",
        "no node",
        "the first step",
        "the second step",
        "the third step",
    ];
    assert!(met_enough(&met, 500, &all));
}

#[test]
fn the_way_of_every_lookup_in_small_networks_is_accepted() {
    let met = every_lookup(&Second, &Second).unwrap();
    println!("{met:?}");
    let all = [
        "to itself",
        "arrived",
        "arrived, around a failed node",
        "lost at once",
        "lost on the way",
    ];
    assert!(met_enough(&met, 300, &all));
}

#[test]
fn lookups_tell_which_paths_are_allowed() {
    let met = by_lookups(&Second, &Second).unwrap();
    println!("{met:?}");
    assert!(met_enough(&met, 1_000, &["accepted", "not allowed"]));
}

#[test]
fn allowed_paths_are_accepted_in_any_state() {
    let met = accepted(&Second, &Second).unwrap();
    println!("{met:?}");
    let paths = [
        "to itself",
        "arrived",
        "arrived, around a failed node",
        "lost at once",
        "lost on the way",
        "wandered nowhere",
        "by the first of each",
        "by a second",
        "by a third",
        "by a fourth",
    ];
    assert!(met_enough(&met, 500, &paths) && met_enough(&met, 50, &["joins under way"]));
}

#[test]
fn faults_are_named_by_number_path_and_place() {
    let met = faulty(&Second, &Second).unwrap();
    println!("{met:?}");
    let two = [
        "22 and 22",
        "22 and 9",
        "22 and 23",
        "9 and 22",
        "9 and 9",
        "9 and 23",
        "23 and 22",
        "23 and 9",
        "23 and 23",
    ];
    assert!(met_enough(&met, 20, &KINDS) && met_enough(&met, 50, &two));
    assert!(met_enough(&met, 1_000, &["a wrong end"]));
}

#[test]
fn damaged_files_are_answered_as_they_read() {
    let met = damaged(&Second, &Second).unwrap();
    println!("{met:?}");
    let all = [
        "accepted",
        "counts",
        "no node",
        "not allowed",
        "cut or longer",
    ];
    assert!(met_enough(&met, 500, &all));
}

#[test]
fn a_fault_in_any_of_255_paths_is_named() {
    let files = most(&Second, &Second).unwrap();
    println!("{files} files");
    assert!(files > 800, "{files}");
}

/// What the bench times.
#[test]
fn there_are_255_different_ways_of_nine_nodes_in_a_network_of_64() {
    let (memory, mut paths) = long_ways();
    assert_eq!(memory.state[COUNT], 64);
    paths.sort();
    paths.dedup();
    assert_eq!(paths.len(), 255);
    assert!(paths.iter().all(|path| path.len() == 9));
    let traced = Trial { memory }.trace(&trace_file(&paths));
    assert_eq!(traced, TraceAnswer::default());
}
