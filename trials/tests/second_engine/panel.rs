//! Each node's two counts: joins worked out by hand, damaged counts, and what runs reach.

use std::collections::BTreeSet;

use trials::engine::Second;
use trials::lent::Lent;
use trials::panel::{by_hand, hold, panels, reached, Bounds, SETTINGS};
use trials::random::{seeds, some_state, Rng};
use trials::second::memory::{record, COUNT};

#[test]
fn joins_count_what_was_worked_out_by_hand() {
    for join in by_hand() {
        let mut memory = Lent::noise();
        for (number, step) in (1..).zip(&join.steps) {
            memory.obey(&Second, &step.line);
            let state = memory.used_state();
            let found = &panels(state)[..state[COUNT] as usize];
            let right = step.stands_in(state);
            assert!(right, "{}, line {number}: {found:?}", join.name);
        }
    }
}

#[test]
fn damaged_counts_are_judged_by_the_sentences() {
    hold(&Second, &Second);
}

/// Every status in every setting, but that two nodes cannot notify; targets that match in 0 to 7 digits, and told sets of 1 to 62.
#[test]
fn nodes_of_every_kind_have_their_counts_damaged() {
    let kinds: BTreeSet<_> = reached().iter().map(|reached| reached.kind()).collect();
    for settings in SETTINGS {
        for status in 0..=3 {
            let met = kinds
                .iter()
                .any(|kind| (kind.0, kind.1) == (settings, status));
            assert_eq!(
                met,
                (settings, status) != ([2, 1, 1], 3),
                "{settings:?}, {status}"
            );
        }
    }
    let more = |status| {
        kinds
            .iter()
            .filter(move |kind| kind.1 == status)
            .map(|kind| kind.2)
    };
    for status in [1, 2] {
        assert!((0..=7).eq(more(status).collect::<BTreeSet<_>>()));
    }
    assert!((1..=62).eq(more(3).collect::<BTreeSet<_>>()));
}

/// Without these, random states would try too little: each count at its least and at its most, by status.
#[test]
fn random_states_have_counts_at_their_bounds() {
    let mut met = BTreeSet::new();
    for seed in seeds(0, 400) {
        let memory = some_state(&mut Rng::new(seed));
        let state = memory.used_state();
        for node in 1..=state[COUNT] as usize {
            let [_, status, .., requests, notices] = *record(state, node);
            let bounds = Bounds::of(state, node);
            let ends = [(requests, bounds.requests), (notices, bounds.notices)];
            let ends = ends.map(|(count, range)| (count == *range.start(), count == *range.end()));
            met.extend((0..).zip(ends).map(|(count, ends)| (status, count, ends)));
        }
    }
    for status in 0..=3 {
        for (count, ends) in [(0, (true, false)), (0, (false, false)), (0, (false, true))] {
            assert!(met.contains(&(status, count, ends)), "{status}: {ends:?}");
        }
    }
    for ends in [(true, false), (false, false), (false, true)] {
        assert!(met.contains(&(0, 1, ends)), "{ends:?}");
    }
}
