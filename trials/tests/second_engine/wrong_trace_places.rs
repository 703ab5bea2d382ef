//! A trace refused by a later sentence before an earlier one, or at another path and place.

use crate::wrong_traces::{are_seen, Wrong, BY_THE_ENTRY};

const WRONG: [Wrong; 18] = [
    (
        "the first fault in the file wins, 9 or 23",
        |after| {
            let all = after.read();
            let by_place = |answer: &u64| (answer >> 8 & 0xff, answer >> 16);
            if after.is(9) {
                let steps = after.wrong_steps(&all, BY_THE_ENTRY);
                let faults = after.no_nodes(&all).into_iter().chain(steps);
                after.answer = faults.min_by_key(by_place).unwrap();
            }
        },
        "by hand, in order, every file, faulty",
    ),
    (
        "9 and 23 are judged path by path",
        |after| {
            let all = after.read();
            let path = |answer: u64| answer >> 8 & 0xff;
            if after.is(9) {
                let steps = after.wrong_steps(&all, BY_THE_ENTRY);
                let first = steps.first().copied().unwrap_or(u64::MAX);
                if path(first) < path(after.answer) {
                    after.answer = first;
                }
            }
        },
        "by hand, in order, every file, faulty",
    ),
    (
        "23 is judged before 9",
        |after| {
            if after.is(9) {
                let steps = after.wrong_steps(&after.read(), BY_THE_ENTRY);
                after.answer = steps.first().copied().unwrap_or(after.answer);
            }
        },
        "by hand, in order, every file, every path, faulty",
    ),
    (
        "9 is judged before 22",
        |after| {
            if after.is(22) {
                after.other_file(&after.front().file);
                after.answer = if after.is(9) { after.answer } else { 22 };
            }
        },
        "by hand, in order, every file, faulty",
    ),
    (
        "23 is judged before 22",
        |after| {
            if after.is(22) {
                after.other_file(&after.front().file);
                after.answer = if after.is(23) { after.answer } else { 22 };
            }
        },
        "by hand, in order, every file, faulty, damaged",
    ),
    (
        "the last number that no node has is named",
        |after| {
            if after.is(9) {
                after.answer = *after.no_nodes(&after.read()).last().unwrap();
            }
        },
        "by hand, every file, every path, faulty",
    ),
    (
        "the last step that is not allowed is named",
        |after| {
            if after.is(23) {
                let steps = after.wrong_steps(&after.read(), BY_THE_ENTRY);
                after.answer = *steps.last().unwrap();
            }
        },
        "by hand, every file, every path, faulty, damaged, most",
    ),
    (
        "places count from 0",
        |after| after.answer -= u64::from(after.is(9) || after.is(23)) << 16,
        "by hand, in order, every file, every path, faulty, damaged, most",
    ),
    (
        "paths count from 0",
        |after| after.answer -= u64::from(after.is(9) || after.is(23)) << 8,
        "by hand, in order, every file, every path, faulty, damaged, most",
    ),
    (
        "a step is named by where it goes",
        |after| after.answer += u64::from(after.is(23)) << 16,
        "by hand, in order, every file, every path, faulty, damaged, most",
    ),
    (
        "path and place are exchanged",
        |after| {
            let [number, path, place, ..] = after.answer.to_le_bytes();
            after.answer = u64::from_le_bytes([number, place, path, 0, 0, 0, 0, 0]);
        },
        "by hand, in order, every file, every path, faulty, damaged, most",
    ),
    (
        "the path is cut to seven bits",
        |after| after.answer &= 0xff_7fff,
        "most",
    ),
    (
        "9 has no place",
        |after| after.answer &= if after.is(9) { 9 } else { !0 },
        "by hand, in order, every file, every path, faulty, damaged, most",
    ),
    (
        "23 has no place",
        |after| after.answer &= if after.is(23) { 23 } else { !0 },
        "by hand, in order, every file, every path, faulty, damaged, most",
    ),
    (
        "22 has a path",
        |after| after.answer |= u64::from(after.is(22)) << 8,
        "by hand, in order, every file, faulty, damaged, most",
    ),
    (
        "an accepted file has its paths",
        |after| {
            if after.is(0) {
                after.answer = u64::from(after.trace[0]) << 8;
            }
        },
        "by hand, in order, every file, every path, every lookup, accepted, damaged, most",
    ),
    (
        "the second path is named as the first",
        |after| {
            if after.answer >> 8 & 0xff == 2 {
                after.answer -= 0x100;
            }
        },
        "by hand, in order, every file, every path, faulty, damaged, most",
    ),
    (
        "only the first path is looked at",
        |after| {
            if after.answer >> 8 & 0xff > 1 {
                after.answer = 0;
            }
        },
        "by hand, in order, every file, every path, faulty, damaged, most",
    ),
];

#[test]
fn a_wrong_order_or_place_is_seen() {
    are_seen(&WRONG);
}
