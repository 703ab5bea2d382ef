//! Wrong turns with the two counts: each is seen beside the second engine, and where two engines take it together.

use trials::compare::compare;
use trials::engine::{Engine, Second};
use trials::panel::{by_hand, reached, requests_word, Bounds, Held};
use trials::second::memory::{Record, State, COUNT, DIGITS};

use crate::spoiled::{SpoilDelivery, SpoilJudge, Spoiled, UNSPOILED};

const STATUS: usize = 1;
const PENDING: usize = 4;
const TOLD: usize = 5;
const REQUESTS: usize = 6;
const NOTICES: usize = 7;

/// The line at which a wrong turn is seen first in one of the joins by hand.
fn first_seen(a: &dyn Engine, b: &dyn Engine, join: &str) -> Option<usize> {
    let joins = by_hand();
    let found = joins.iter().find(|other| other.name == join).expect(join);
    let difference = compare(a, b, &found.script()).err();
    difference.map(|difference| difference.line + 1)
}

/// Seen at this line of this join.
fn is_seen(what: &str, wrong: Spoiled, join: &str, line: usize) {
    assert_eq!(first_seen(&wrong, &Second, join), Some(line), "{what}");
    assert_eq!(first_seen(&Second, &wrong, join), Some(line), "{what}");
    assert_eq!(first_seen(&wrong, &wrong, join), Some(line), "{what}, both");
}

/// What a delivery counts wrong, and where it is seen.
const DELIVERIES: [(&str, SpoilDelivery, &str, usize); 15] = [
    (
        "settling clears the counts",
        |after| {
            if after.settled {
                after.sender[REQUESTS..].fill(0);
            }
        },
        "E1",
        4,
    ),
    (
        "a notice is counted as a request",
        |after| {
            if after.kind == 4 {
                after.sender[REQUESTS] += 1;
                after.sender[NOTICES] -= 1;
            }
        },
        "held",
        12,
    ),
    (
        "a notice is counted as both",
        |after| after.sender[REQUESTS] += u64::from(after.kind == 4),
        "notices",
        8,
    ),
    (
        "attaching is counted as a notice",
        |after| after.sender[NOTICES] += u64::from(after.kind == 3),
        "E1",
        4,
    ),
    (
        "attaching is counted as a request",
        |after| after.sender[REQUESTS] += u64::from(after.kind == 3),
        "E1",
        4,
    ),
    (
        "the last notice is not counted",
        |after| after.sender[NOTICES] -= u64::from(after.kind == 4 && after.settled),
        "held",
        12,
    ),
    (
        "copying is not counted",
        |after| after.sender[REQUESTS] -= u64::from(after.kind == 1),
        "E1",
        3,
    ),
    (
        "sending on is not counted",
        |after| after.sender[REQUESTS] -= u64::from(after.kind == 2),
        "sent on",
        7,
    ),
    (
        "a held wait is counted",
        |after| after.sender[REQUESTS] += u64::from(after.refusal == 14),
        "held",
        10,
    ),
    (
        "a delivery of nothing outstanding is counted",
        |after| after.sender[REQUESTS] += u64::from(after.refusal == 13),
        "E1",
        5,
    ),
    (
        "a notice is counted for its receiver",
        |after| {
            if after.kind == 4 {
                after.sender[NOTICES] -= 1;
                after.receiver[NOTICES] += 1;
            }
        },
        "held",
        12,
    ),
    (
        "requests are counted up to 3",
        |after| after.sender[REQUESTS] = after.sender[REQUESTS].min(3),
        "d + 1",
        12,
    ),
    (
        "requests are counted in 3 bits",
        |after| after.sender[REQUESTS] &= 7,
        "8 digits",
        42,
    ),
    (
        "notices are counted up to 61",
        |after| after.sender[NOTICES] = after.sender[NOTICES].min(61),
        "62 notices",
        66,
    ),
    (
        "notices are counted in 5 bits",
        |after| after.sender[NOTICES] &= 31,
        "62 notices",
        36,
    ),
];

#[test]
fn a_delivery_that_counts_wrong_is_seen() {
    for (what, deliver, join, line) in DELIVERIES {
        let wrong = Spoiled {
            deliver,
            ..UNSPOILED
        };
        is_seen(what, wrong, join, line);
    }
}

/// The counts of the node that a taken beginning made.
fn newest(state: &mut [u64], answer: u64) -> Option<&mut [u64]> {
    let first = requests_word((answer >> 8) as usize);
    (answer & 0xff == 0).then(|| &mut state[first..first + 2])
}

#[test]
fn a_beginning_that_counts_wrong_is_seen() {
    let begin = |begin| Spoiled { begin, ..UNSPOILED };
    let uncounted = begin(|state, _, answer| {
        newest(state, answer)
            .into_iter()
            .for_each(|counts| counts.fill(0));
        answer
    });
    is_seen("the beginning is not counted", uncounted, "E1", 2);
    let notice = begin(|state, _, answer| {
        newest(state, answer)
            .into_iter()
            .for_each(|counts| counts[1] = 1);
        answer
    });
    is_seen("the beginning is a notice too", notice, "E1", 2);
    let refused = begin(|state, _, answer| {
        state[requests_word(1)] += u64::from(answer & 0xff != 0);
        answer
    });
    is_seen("a refused beginning is counted", refused, "E1", 6);
}

#[test]
fn a_run_that_does_not_start_with_zero_is_seen() {
    let founded = Spoiled {
        found: |state| state[requests_word(1)] = 1,
        ..UNSPOILED
    };
    is_seen("founding is counted", founded, "E1", 1);
    let read = Spoiled {
        read: |state, _, answer| {
            state[requests_word(2)] = 2;
            answer
        },
        ..UNSPOILED
    };
    is_seen("reading keeps the counts", read, "new runs", 5);
}

/// Node 2 of an image of version 2 that is read.
#[test]
fn a_run_that_does_not_start_with_the_counts_of_its_image_is_seen() {
    let restored = |restore| Spoiled {
        restore,
        ..UNSPOILED
    };
    let zero = restored(|after| {
        if after.answer == 0 {
            after.state[requests_word(2)] = 0;
        }
    });
    is_seen("reading sets the counts to zero", zero, "resumed", 5);
    let added = restored(|after| {
        if after.answer == 0 {
            after.state[requests_word(2)] = after.before.0[requests_word(2)];
        }
    });
    is_seen("reading keeps the counts from before", added, "resumed", 5);
}

/// What stands in place of a node's record when it is judged.
const JUDGES: [(&str, SpoilJudge); 16] = [
    ("nothing of the counts is judged", |state, node, record| {
        record[REQUESTS] = 0;
        record[NOTICES] = *Bounds::of(state, node).notices.start();
    }),
    ("both are zero, as before", |_, _, record| {
        let zero = record[REQUESTS..] == [0, 0];
        record[REQUESTS] = if zero { 0 } else { u64::MAX };
    }),
    ("a waiting node may have sent one more", |_, _, record| {
        if record[STATUS] == 2 {
            record[REQUESTS] = record[REQUESTS].saturating_sub(1);
        }
    }),
    ("a copying node may have sent one more", |_, _, record| {
        if record[STATUS] == 1 {
            record[REQUESTS] = record[REQUESTS].saturating_sub(1);
        }
    }),
    ("a waiting node may have sent one less", |_, _, record| {
        if record[STATUS] == 2 {
            record[REQUESTS] = record[REQUESTS].saturating_add(1);
        }
    }),
    ("d + 1 requests in every status", |state, _, record| {
        if record[REQUESTS] <= state[DIGITS] + 1 {
            record[REQUESTS] = 0;
        }
    }),
    ("d requests once attached", |_, _, record| {
        if matches!(record[STATUS], 0 | 3) {
            record[REQUESTS] = record[REQUESTS].saturating_add(1);
        }
    }),
    ("at least one request while joining", |_, _, record| {
        if matches!(record[STATUS], 1 | 2) && record[REQUESTS] == 0 {
            record[REQUESTS] = u64::MAX;
        }
    }),
    ("62 notices in every status", |state, node, record| {
        if record[NOTICES] <= 62 {
            record[NOTICES] = *Bounds::of(state, node).notices.start();
        }
    }),
    ("63 notices once settled", |_, _, record| {
        if record[STATUS] == 0 {
            record[NOTICES] = record[NOTICES].saturating_sub(1);
        }
    }),
    ("as many notices as are told", |_, _, record| {
        if record[STATUS] == 3 {
            record[NOTICES] = record[NOTICES].wrapping_sub(1);
        }
    }),
    ("at most one notice less than are told", |_, _, record| {
        let told = u64::from(record[TOLD].count_ones());
        if record[STATUS] == 3 && record[NOTICES] < told {
            record[NOTICES] = told - 1;
        }
    }),
    ("no notices, but nobody told", |state, node, record| {
        if record[NOTICES] == 0 {
            tell(state, node, record);
        }
    }),
    (
        "one less than nobody told, wrapping",
        |state, node, record| {
            if record[NOTICES] == u64::MAX {
                tell(state, node, record);
            }
        },
    ),
    ("counts of 32 bits", |_, _, record| {
        record[REQUESTS..]
            .iter_mut()
            .for_each(|count| *count &= 0xffff_ffff);
    }),
    ("counts of 8 bits", |_, _, record| {
        record[REQUESTS..]
            .iter_mut()
            .for_each(|count| *count &= 0xff);
    }),
];

/// A notifying node that has told nobody has told somebody after all.
fn tell(state: &State, node: usize, record: &mut Record) {
    let attached = |&other: &usize| matches!(state[8 * other + STATUS], 0 | 3) && other != node;
    let asked = |&other: &usize| record[PENDING] >> (other - 1) & 1 == 1;
    let mut others = (1..=state[COUNT] as usize).filter(attached);
    if let Some(other) = others.find(|other| !asked(other)) {
        if record[STATUS] == 3 && record[TOLD] == 0 {
            record[TOLD] = 1 << (other - 1);
            record[NOTICES] = 0;
        }
    }
}

#[test]
fn a_judge_that_is_wrong_about_the_counts_is_seen() {
    let reached = reached();
    assert!(Held::to(&reached, &UNSPOILED, &UNSPOILED).is_ok());
    for (what, judge) in JUDGES {
        let wrong = Spoiled { judge, ..UNSPOILED };
        assert!(Held::to(&reached, &wrong, &wrong).is_err(), "{what}");
    }
}
