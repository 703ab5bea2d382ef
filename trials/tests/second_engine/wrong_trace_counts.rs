//! Wrong turns in the counts and the numbers of a trace, and in what it asks of the state.

use trials::second::memory::DIGITS;
use trials::traces::{passed, Passed};

use crate::wrong_traces::{are_seen, Front, Wrong};

const WRONG_COUNTS: [Wrong; 10] = [
    (
        "an empty file is accepted",
        |after| after.answer *= u64::from(!after.is(22) || !after.trace.is_empty()),
        "by hand, in order, every file, damaged",
    ),
    (
        "a file of no paths is refused",
        |after| {
            if after.is(0) && after.trace[0] == 0 {
                after.answer = 22;
            }
        },
        "by hand, in order, every file, accepted",
    ),
    (
        "paths of no nodes are accepted",
        |after| {
            let none = passed(after.trace, 0..=9).is_some_and(|all| all.is_empty());
            if after.is(22) && none {
                after.answer = 0;
            }
        },
        "by hand, every file, faulty",
    ),
    (
        "paths of ten nodes are accepted",
        |after| {
            if after.is(22) && passed(after.trace, 1..=10).is_some() {
                after.answer = 0;
            }
        },
        "by hand, faulty",
    ),
    (
        "paths of 255 nodes are accepted",
        |after| {
            let some = [1..=9, 255..=255].map(|counts| passed(after.trace, counts).is_some());
            if after.is(22) && some == [false, true] {
                after.answer = 0;
            }
        },
        "faulty",
    ),
    (
        "bytes behind the last path are let be",
        |after| {
            let Front { file, behind } = after.front();
            if after.is(22) && behind > 0 && file[0] == after.trace[0] {
                after.other_file(&file);
            }
        },
        "by hand, every file, faulty, damaged, most",
    ),
    (
        "one byte behind the last path is let be",
        |after| {
            let Front { file, behind } = after.front();
            if after.is(22) && behind == 1 && file[0] == after.trace[0] {
                after.other_file(&file);
            }
        },
        "by hand, every file, faulty, damaged, most",
    ),
    (
        "paths that are not there are let be",
        |after| {
            let Front { file, behind } = after.front();
            if after.is(22) && behind == 0 && !after.trace.is_empty() {
                after.other_file(&file);
            }
        },
        "by hand, every file, faulty, damaged",
    ),
    (
        "a path may have no more nodes than there are digits",
        |after| {
            let digits = after.state.get(DIGITS).copied().unwrap_or(0);
            if after.read().iter().any(|at| at.place > digits) {
                after.answer = 22;
            }
        },
        "by hand, every file, every path, every lookup, accepted, faulty, damaged, most",
    ),
    (
        "wrong counts are refused as those of an image",
        |after| after.answer -= 16 * u64::from(after.is(22)),
        "by hand, in order, every file, faulty, damaged, most",
    ),
];

const WRONG_NUMBERS: [Wrong; 5] = [
    (
        "every number up to 64 is a node's",
        |after| {
            let all = after.read();
            if after.is(9) && all.iter().all(|at| (1..=64).contains(&at.node)) {
                after.answer = 0x1_0117;
            }
        },
        "by hand, in order, every file, every path, faulty, damaged, most",
    ),
    (
        "the highest number is no node's",
        |after| {
            let all = after.read();
            let highest = all.iter().find(|at| at.node == after.count());
            if let (false, Some(at)) = (after.is(9), highest) {
                after.answer = at.refused(9);
            }
        },
        "by hand, in order, every file, every path, every lookup, accepted, faulty, damaged, most",
    ),
    (
        "0 is let be",
        |after| {
            let mut no_nodes = after.read();
            no_nodes.retain(|at| !after.is_node(at.node));
            if after.is(9) && no_nodes.iter().all(|at| at.node == 0) {
                after.answer = 0;
            }
        },
        "by hand, every file, every path, faulty, damaged, most",
    ),
    (
        "numbers are cut to seven bits",
        |after| {
            let all = after.read();
            if after.is(9) && all.iter().all(|at| after.is_node(at.node & 0x7f)) {
                after.answer = 0;
            }
        },
        "by hand, every file, faulty, damaged",
    ),
    (
        "a destination that is no node is a step that is not allowed",
        |after| {
            let all = after.read();
            let no_node = all.iter().find(|at| !after.is_node(at.node));
            let behind = |at: &&Passed| at.next.is_none() && at.place > 1;
            if let Some(at) = no_node.filter(behind) {
                after.answer = at.refused(23) - (1 << 16);
            }
        },
        "by hand, every file, every path, faulty, damaged, most",
    ),
];

const WRONG_STATES: [Wrong; 6] = [
    (
        "joins under way are refused 15",
        |after| {
            let mut nodes = 1..=after.count();
            if after.judged() && nodes.any(|node| after.status(node) != 0) {
                after.answer = 15;
            }
        },
        "in order, every path, every lookup, accepted, faulty, damaged",
    ),
    (
        "a node that copies or waits is none",
        |after| {
            let all = after.read();
            let joining = |at: &&Passed| after.is(0) && matches!(after.status(at.node), 1 | 2);
            if let Some(at) = all.iter().find(joining) {
                after.answer = at.refused(9);
            }
        },
        "in order, every path, every lookup, accepted",
    ),
    (
        "22 is judged before 2",
        |after| {
            if after.is(2) && passed(after.trace, 1..=9).is_none() {
                after.answer = 22;
            }
        },
        "in order",
    ),
    (
        "22 is judged before 1",
        |after| {
            if after.is(1) && passed(after.trace, 1..=9).is_none() {
                after.answer = 22;
            }
        },
        "in order",
    ),
    (
        "9 is judged before 2",
        |after| {
            let all = passed(after.trace, 1..=9).unwrap_or_default();
            if let (true, Some(answer)) = (after.is(2), after.no_nodes(&all).first()) {
                after.answer = *answer;
            }
        },
        "in order",
    ),
    (
        "without paths the state is not judged",
        |after| {
            if after.is(2) && after.trace == [0] {
                after.answer = 0;
            }
        },
        "in order",
    ),
];

#[test]
fn counts_that_are_judged_wrong_are_seen() {
    are_seen(&WRONG_COUNTS);
}

#[test]
fn numbers_that_are_judged_wrong_are_seen() {
    are_seen(&WRONG_NUMBERS);
}

#[test]
fn a_state_that_is_judged_wrong_is_seen() {
    are_seen(&WRONG_STATES);
}
