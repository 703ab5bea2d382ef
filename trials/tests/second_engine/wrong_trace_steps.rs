//! Wrong turns in the steps of a trace.

use trials::failures::Literal;
use trials::panel::matched;
use trials::traces::Passed;

use crate::wrong_traces::{are_seen, Wrong, BY_THE_ENTRY};

/// Among the first so many of an entry.
fn in_front(literal: &Literal, at: &Passed, next: u64, most: usize) -> bool {
    let entry = literal.entry(at.node, at.destination);
    entry.iter().take(most).any(|&node| node == next)
}

const WRONG: [Wrong; 14] = [
    (
        "only the first of an entry is allowed",
        |after| after.steps(|literal, at, next| in_front(literal, at, next, 1)),
        "by hand, every path, every lookup, by its lookups, accepted, faulty, damaged",
    ),
    (
        "only the first two are allowed",
        |after| after.steps(|literal, at, next| in_front(literal, at, next, 2)),
        "by hand, every path, every lookup, by its lookups, accepted, faulty, damaged",
    ),
    (
        "only the first three are allowed",
        |after| after.steps(|literal, at, next| in_front(literal, at, next, 3)),
        "every path, every lookup, by its lookups, accepted, faulty, damaged",
    ),
    (
        "a step past the destination is allowed",
        |after| {
            after.steps(|literal, at, next| {
                at.node == at.destination || BY_THE_ENTRY(literal, at, next)
            })
        },
        "by hand, in order, every file, every path, by its lookups, faulty, damaged, most",
    ),
    (
        "the destination may stand twice",
        |after| {
            after.steps(|literal, at, next| {
                [at.node, next] == [at.destination; 2] || BY_THE_ENTRY(literal, at, next)
            })
        },
        "by hand, in order, every file, every path, by its lookups, faulty, damaged, most",
    ),
    (
        "a step may stay",
        |after| {
            after.steps(|literal, at, next| {
                at.node == next && next != at.destination || BY_THE_ENTRY(literal, at, next)
            })
        },
        "by hand, every file, every path, by its lookups, faulty, damaged, most",
    ),
    (
        "a step to the destination is always allowed",
        |after| {
            after.steps(|literal, at, next| {
                at.node != next && next == at.destination || BY_THE_ENTRY(literal, at, next)
            })
        },
        "by hand, in order, every path, by its lookups, faulty, damaged",
    ),
    (
        "any node that matches the destination in more digits is allowed",
        |after| {
            if !after.is(23) {
                return;
            }
            let state = after.state.first_chunk().unwrap();
            let far = |one: u64, other: u64| matched(state, one as usize, other as usize);
            let all = after.read();
            let back = all.iter().find(|at| match at.next {
                Some(next) => far(next, at.destination) <= far(at.node, at.destination),
                None => false,
            });
            after.answer = back.map_or(0, |at| at.refused(23));
        },
        "by hand, in order, every path, by its lookups, faulty, damaged",
    ),
    (
        "each step is judged as a way to the next node",
        |after| {
            after.steps(|literal, at, next| {
                at.node != at.destination && literal.entry(at.node, next).contains(&next)
            })
        },
        "by hand, every path, by its lookups, faulty, damaged",
    ),
    (
        "every path has the destination of the first",
        |after| {
            let mut all = after.read();
            let first = all.first().map_or(0, |at| at.destination);
            all.iter_mut().for_each(|at| at.destination = first);
            if after.is(0) || after.is(23) {
                let wrong = after.wrong_steps(&all, BY_THE_ENTRY);
                after.answer = wrong.first().copied().unwrap_or(0);
            }
        },
        "by hand, every file, every path, every lookup, accepted, faulty, damaged",
    ),
    (
        "only the first step of a path is looked at",
        |after| after.steps(|literal, at, next| at.place > 1 || BY_THE_ENTRY(literal, at, next)),
        "by hand, every file, every path, by its lookups, faulty, damaged, most",
    ),
    (
        "the first step of a path is not looked at",
        |after| after.steps(|literal, at, next| at.place == 1 || BY_THE_ENTRY(literal, at, next)),
        "by hand, in order, every file, every path, by its lookups, faulty, damaged, most",
    ),
    (
        "no step is looked at",
        |after| after.steps(|_, _, _| true),
        "by hand, in order, every file, every path, by its lookups, faulty, damaged, most",
    ),
    (
        "a path of one node is not allowed",
        |after| {
            let all = after.read();
            let alone = |at: &&Passed| at.place == 1 && at.next.is_none();
            if let (true, Some(at)) = (after.is(0), all.iter().find(alone)) {
                after.answer = at.refused(23);
            }
        },
        "by hand, in order, every file, every path, every lookup, accepted, damaged",
    ),
];

#[test]
fn a_step_that_is_judged_wrong_is_seen() {
    are_seen(&WRONG);
}
