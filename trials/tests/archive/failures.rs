//! Lookups and surveys around failed nodes by the proved engine beside the second one.

use std::fs;

use trials::archive::Archive;
use trials::engine::Second;
use trials::failures::{
    any_set, arrives, by_hand, cost, every_set, in_order, kept, mean, survived, Literal,
};
use trials::lent::Lent;
use trials::script::{set_of, Call};
use trials::second::memory::{COUNT, DEPTH};
use trials::second::{Counts, LOST};

use crate::support::{fenced_too, Both};

#[test]
fn lookups_and_surveys_are_answered_as_worked_out_by_hand() {
    fenced_too(by_hand);
}

#[test]
fn the_first_refusal_that_is_true_wins() {
    fenced_too(in_order);
}

#[test]
fn every_failed_set_of_small_networks_is_answered_as_it_reads() {
    every_set(&Archive, &Second).unwrap();
}

#[test]
fn numbers_that_no_node_has_mean_nothing_in_any_state() {
    any_set(&Archive, &Second).unwrap();
}

#[test]
fn fewer_failures_than_an_entry_holds_are_survived_and_so_many_may_not_be() {
    survived(&Archive, &Second).unwrap();
}

#[test]
fn later_joins_change_no_lookup_around_failed_nodes() {
    kept(&Archive, &Second).unwrap();
}

/// By each lookup between two others, and by the survey.
#[test]
fn every_single_failure_is_survived_on_the_sample_of_depth_3() {
    let path = concat!(env!("CARGO_MANIFEST_DIR"), "/../samples/depth3.image");
    let mut both = Both::read_in(&fs::read(path).expect("the sample"));
    let (nodes, depth) = (both.memory().state[COUNT], both.memory().state[DEPTH]);
    assert!(depth == 3 && nodes >= 20, "{nodes} nodes, depth {depth}");
    assert_eq!(both.call(Call::Verdict), 0x100);
    let mut around = 0;
    for node in 1..=nodes {
        let failed = set_of(&[node]);
        let others = (1..=nodes).filter(|&other| other != node);
        let pairs = others
            .clone()
            .flat_map(|from| others.clone().map(move |to| (from, to)));
        for (from, to) in pairs.filter(|(from, to)| from != to) {
            let answer = both.lookup(from, to, failed);
            assert!(arrives(answer, to), "{from} to {to} without {node}");
            around += usize::from(
                Literal::new(both.memory(), 0)
                    .way(from, to)
                    .nodes
                    .contains(&node),
            );
        }
        let counts = both.survey(failed);
        assert_eq!(counts[LOST], 0, "without {node}");
        assert_eq!(counts.iter().sum::<u64>(), (nodes - 1) * (nodes - 2));
    }
    assert!(around > 100, "{around} lookups go another way");
}

/// Here nodes 1, 2 and 3.
#[test]
fn as_many_failures_as_the_depth_lose_pairs_on_the_sample_of_depth_3() {
    let path = concat!(env!("CARGO_MANIFEST_DIR"), "/../samples/depth3.image");
    let mut both = Both::read_in(&fs::read(path).expect("the sample"));
    let counts = both.survey(set_of(&[1, 2, 3]));
    assert_eq!((counts[LOST], counts.iter().sum::<u64>()), (77, 420));
}

/// A number with a comma before each three digits.
fn grouped(number: u64) -> String {
    match number {
        0..=999 => number.to_string(),
        _ => format!("{},{:03}", grouped(number / 1000), number % 1000),
    }
}

/// A row of the page: pairs, those for 1 to 4 hops, lost, and the mean.
fn row(name: &str, counts: &Counts) -> String {
    let pairs: u64 = counts.iter().sum();
    let [one, two, three, four, .., lost] = *counts;
    let cells = [pairs, one, two, three, four, lost]
        .map(grouped)
        .join(" | ");
    format!("| {name} | {cells} | {:.4} |", mean(counts))
}

#[test]
fn one_failure_costs_what_the_page_says() {
    let root = concat!(env!("CARGO_MANIFEST_DIR"), "/..");
    let page = fs::read_to_string(format!("{root}/docs/FAILURES.md")).expect("the page");
    for (sample, others) in [("network64", 62), ("depth3", 22)] {
        let image = fs::read(format!("{root}/samples/{sample}.image")).expect(sample);
        let mut memory = Lent::noise();
        assert_eq!(memory.call(&Archive, &Call::Read { image }), 0);
        let cost = cost(&Archive, &mut memory);
        let worst = format!("node {} alone", cost.worst.node);
        let rows = [
            row("none", &cost.none.map(|count| count * others)),
            row("each node alone", &cost.alone),
            row("none", &cost.worst.before),
            row(&worst, &cost.worst.after),
        ];
        for row in rows {
            assert!(page.contains(&row), "{sample}: {row}");
        }
        assert_eq!(cost.none[4..LOST].iter().sum::<u64>(), 0);
        assert_eq!(cost.alone[4..LOST].iter().sum::<u64>(), 0);
    }
}
