//! Engines that read images of version 2 wrong are seen.

use crate::spoiled::{AfterReading, SpoilReading, Spoiled, UNSPOILED};
use crate::wrong_images::{image_is_seen, ASKED, LEVEL, NOTICES, REQUESTS, STATUS, TOLD};

/// What goes wrong, and by which of the trials it must be seen.
type Wrong = (&'static str, SpoilReading, &'static str);

const ALL: &str = "by hand, in order, stopped, round trips, damaged, unreached, longest";
const DIRTY: &str = "stopped, round trips, damaged, unreached, longest";
const REFUSED: &str = "in order, damaged, unreached";

const RESTORED: [Wrong; 14] = [
    (
        "the two counts are exchanged",
        |after| after.records(|record| record.swap(REQUESTS, NOTICES)),
        ALL,
    ),
    (
        "the counts are not restored",
        |after| after.records(|record| record[REQUESTS..].fill(0)),
        ALL,
    ),
    (
        "the first count is not restored",
        |after| after.records(|record| record[REQUESTS] = 0),
        ALL,
    ),
    (
        "the second count is not restored",
        |after| after.records(|record| record[NOTICES] = 0),
        "in order, stopped, round trips, damaged, unreached, longest",
    ),
    (
        "only a settled node's counts are restored",
        |after| {
            after.records(|record| {
                let keeps = u64::from(record[STATUS] == 0);
                record[REQUESTS] *= keeps;
            });
        },
        ALL,
    ),
    (
        "asked and told are exchanged",
        |after| after.records(|record| record.swap(ASKED, TOLD)),
        ALL,
    ),
    (
        "the sets are read high byte first",
        |after| {
            after.records(|record| {
                record[ASKED] = record[ASKED].swap_bytes();
                record[TOLD] = record[TOLD].swap_bytes();
            });
        },
        ALL,
    ),
    (
        "the sets have 32 bits",
        |after| {
            after.records(|record| {
                record[ASKED] &= 0xffff_ffff;
                record[TOLD] &= 0xffff_ffff;
            });
        },
        "longest",
    ),
    (
        "the attach level is lost",
        |after| after.records(|record| record[LEVEL] = 0),
        "by hand, in order, stopped, round trips, damaged, unreached",
    ),
    (
        "all are settled, as in version 1",
        |after| after.records(|record| record[STATUS..].fill(0)),
        ALL,
    ),
    (
        "a waiting node copies again",
        |after| after.records(|record| record[STATUS] -= u64::from(record[STATUS] == 2)),
        "by hand, in order, stopped, round trips, damaged, unreached",
    ),
    (
        "an unused word is left as it was",
        |after| {
            if after.restores() {
                after.state[6] = after.before.0[6];
            }
        },
        DIRTY,
    ),
    (
        "the last table is left as it was",
        |after| {
            if after.restores() && after.image[5] < 64 {
                after.tables[32_256..32_768].copy_from_slice(&after.before.1[32_256..32_768]);
            }
        },
        "stopped, round trips, damaged, unreached",
    ),
    (
        "a word past the state is changed",
        |after| {
            if after.restores() && after.state.len() > 520 {
                after.state[520] ^= 1;
            }
        },
        ALL,
    ),
];

#[test]
fn a_state_that_is_restored_wrong_is_seen() {
    are_seen(&RESTORED);
}

/// Has a piece of section four a settled status?
fn settled(piece: &[u8; 20]) -> bool {
    piece[1] == 0
}

const TAKEN: [Wrong; 10] = [
    (
        "a settled status is taken",
        |after| after.instead(|joins, _| joins.unsettled.retain(|piece| !settled(piece))),
        "in order, damaged",
    ),
    (
        "section four is taken in any order",
        |after| after.instead(|joins, _| joins.unsettled.sort()),
        "in order, damaged",
    ),
    (
        "equal numbers are taken",
        |after| after.instead(|joins, _| joins.unsettled.dedup_by_key(|piece| piece[0])),
        "in order, damaged",
    ),
    (
        "numbers of no node are passed over",
        |after| {
            after.instead(|joins, nodes| {
                let is_node = |piece: &[u8; 20]| (1..=nodes).contains(&piece[0].into());
                joins.unsettled.retain(is_node);
            });
        },
        "in order, damaged",
    ),
    (
        "another number of counts is taken",
        |after| after.instead(|joins, nodes| joins.panels.resize(nodes, [0; 2])),
        "in order, damaged",
    ),
    (
        "soundness is not asked",
        |after| {
            if after.answer == 24 && after.in_order() && after.read_front() {
                after.put();
                after.answer = 0;
            }
        },
        REFUSED,
    ),
    (
        "soundness is asked of the settled network only",
        |after| {
            if after.answer == 24 && after.in_order() && after.read_front() {
                after.answer = 0;
            }
        },
        REFUSED,
    ),
    (
        "the counts are not judged",
        |after| after.instead(|joins, _| joins.panels.iter_mut().for_each(|panel| panel[0] = 0)),
        REFUSED,
    ),
    (
        "the second count is cut at 62",
        |after| {
            after.instead(|joins, _| {
                let panels = joins.panels.iter_mut();
                panels.for_each(|panel| panel[1] = panel[1].min(62));
            });
        },
        REFUSED,
    ),
    (
        "the last of sections four and five is passed over",
        |after| {
            after.instead(|joins, _| {
                joins.unsettled.pop();
            });
        },
        REFUSED,
    ),
];

#[test]
fn an_image_that_is_taken_wrong_is_seen() {
    are_seen(&TAKEN);
}

fn another_number_of_counts(after: &AfterReading) -> bool {
    let parts = after.parts();
    parts.is_some_and(|(front, joins)| joins.panels.len() != usize::from(front[5]))
}

const NUMBERED: [Wrong; 11] = [
    (
        "another number of counts is called 6",
        |after| {
            if after.answer == 24 && another_number_of_counts(after) {
                after.answer = 6;
            }
        },
        "in order, damaged",
    ),
    (
        "a number of no node is called 9",
        |after| {
            let nodes = after.image.get(5).copied().unwrap_or(0);
            let none = |piece: &[u8; 20]| !(1..=nodes).contains(&piece[0]);
            let named = after
                .parts()
                .is_some_and(|(_, joins)| joins.unsettled.iter().any(none));
            if after.answer == 24 && named {
                after.answer = 9;
            }
        },
        "in order, damaged",
    ),
    (
        "an unsound state is called 2",
        |after| {
            if after.answer == 24 && after.in_order() {
                after.answer = 2;
            }
        },
        REFUSED,
    ),
    (
        "24 has a place",
        |after| after.answer |= u64::from(after.answer == 24) << 8,
        REFUSED,
    ),
    ("24 goes before 7", |after| before(after, 7), "in order"),
    ("24 goes before 8", |after| before(after, 8), "in order"),
    ("24 goes before 9", |after| before(after, 9), "in order"),
    ("24 goes before 10", |after| before(after, 10), "in order"),
    ("24 goes before 17", |after| before(after, 17), "in order"),
    ("24 goes before 18", |after| before(after, 18), "in order"),
    (
        "version 2 is refused",
        |after| {
            if after.is_version_2() && after.answer != 1 && after.answer != 3 {
                let (state, tables) = &after.before;
                after.state.copy_from_slice(state);
                after.tables.copy_from_slice(tables);
                after.answer = 4;
            }
        },
        ALL,
    ),
];

/// Sections out of order are refused first.
fn before(after: &mut AfterReading, refusal: u64) {
    if after.answer & 0xff == refusal && after.parts().is_some() && !after.in_order() {
        after.answer = 24;
    }
}

#[test]
fn a_refusal_with_a_wrong_number_is_seen() {
    are_seen(&NUMBERED);
}

const LEFT_BEHIND: [Wrong; 4] = [
    (
        "a refused image leaves its tables behind",
        |after| {
            if after.answer == 24 {
                after.read_front();
                after.state.copy_from_slice(&after.before.0);
            }
        },
        REFUSED,
    ),
    (
        "a refused image leaves its records behind",
        |after| {
            if after.answer == 24 {
                after.read_front();
                after.tables.copy_from_slice(&after.before.1);
            }
        },
        REFUSED,
    ),
    (
        "a refused image leaves one byte behind",
        |after| {
            if after.answer == 24 {
                after.tables[32_767] ^= 1;
            }
        },
        REFUSED,
    ),
    (
        "an image refused by its length leaves one word behind",
        |after| {
            if after.answer == 6 {
                after.state[519] ^= 1;
            }
        },
        "in order, damaged, longest",
    ),
];

#[test]
fn what_a_refused_image_leaves_behind_is_seen() {
    are_seen(&LEFT_BEHIND);
}

fn are_seen(wrong: &[Wrong]) {
    for &(what, restore, by) in wrong {
        let wrong = Spoiled {
            restore,
            ..UNSPOILED
        };
        image_is_seen(what, wrong, by);
    }
}
