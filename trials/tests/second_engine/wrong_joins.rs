//! Wrong turns of a join: each is seen by trials that could meet it, also where two engines take it together.

use trials::engine::{Engine, Second};
use trials::one_join::{arriving, every_order, in_turn, last, nothing_else, Sizes, PAPER};
use trials::panel::matched;
use trials::second::memory::{record_mut, DIGITS};
use trials::second::NodeSet;

use crate::seen::{is_seen, Sees};
use crate::spoiled::{AfterStep, SpoilJoin, Spoiled, UNSPOILED};

const SIZES: &Sizes = &[(3, 1, 2), (3, 2, 4), (2, 3, 5)];

fn no_order(engine: &dyn Engine) -> bool {
    every_order(engine, SIZES, PAPER).is_err()
}

const TRIALS: [Sees; 5] = [
    ("every order", |a, b| no_order(a) || no_order(b)),
    ("last", |a, b| last(a, b, PAPER).is_err()),
    ("in turn", |a, b| in_turn(a, b, PAPER).is_err()),
    ("nothing else", |a, b| nothing_else(a, b).is_err()),
    ("arriving", |a, b| arriving(a, b).is_err()),
];

/// Words of a record.
const STATUS: usize = 1;
const LEVEL: usize = 2;
const PENDING: usize = 4;
const TOLD: usize = 5;
const NOTIFYING: u64 = 3;
/// Kinds of a delivery.
const COPIED: u64 = 1;
const ATTACHED: u64 = 3;
const NOTIFIED: u64 = 4;

impl AfterStep<'_> {
    fn kind(&self) -> u64 {
        self.answer >> 8 & 0xff
    }

    /// A word of the sender's record.
    fn word(&mut self, word: usize) -> &mut u64 {
        &mut record_mut(self.state, self.sender)[word]
    }

    fn word_before(&self, word: usize) -> u64 {
        self.before.0[8 * self.sender + word]
    }

    fn notifying(&mut self) -> bool {
        *self.word(STATUS) == NOTIFYING
    }

    /// Asks only those of whom this holds, by their match; settles if there are none.
    fn ask_only(&mut self, holds: impl Fn(u64) -> bool) {
        let asked = NodeSet(*self.word(PENDING));
        let shares = |node| matched(self.state, self.sender, node) as u64;
        let others = asked.iter().filter(|&node| !holds(shares(node)));
        let others: Vec<usize> = others.collect();
        for node in others {
            *self.word(PENDING) &= !NodeSet::only(node).0;
        }
        if *self.word(PENDING) == 0 {
            self.settle();
        }
    }

    fn settle(&mut self) {
        for word in STATUS..=TOLD {
            *self.word(word) = 0;
        }
        self.answer |= 1 << 24;
    }

    /// A table is as it was.
    fn forget(&mut self, node: usize) {
        let table = 512 * (node - 1)..512 * node;
        self.tables[table.clone()].copy_from_slice(&self.before.1[table]);
    }

    /// Where the receiver has learned the sender it comes first, but for an owner.
    fn put_in_front(&mut self) {
        let table = &mut self.tables[512 * (self.receiver - 1)..512 * self.receiver];
        for entry in table.chunks_exact_mut(4) {
            let from = usize::from(usize::from(entry[0]) == self.receiver);
            let place = entry
                .iter()
                .position(|&near| usize::from(near) == self.sender);
            if let Some(place) = place {
                entry[from..=place].rotate_right(1);
            }
        }
    }

    /// Nothing has changed, and this is the answer.
    fn refuse(&mut self, refusal: u64) {
        self.state.copy_from_slice(&self.before.0[..520]);
        self.tables.copy_from_slice(&self.before.1);
        self.answer = refusal;
    }
}

const ALL: &str = "every order, last, in turn, nothing else";

/// What goes wrong, and by which of the trials it must be seen.
const WRONG: [(&str, SpoilJoin, &str); 11] = [
    (
        "nodes that share just as much as the attach level are left out",
        |after| {
            if after.notifying() {
                let level = *after.word(LEVEL);
                after.ask_only(|shares| shares > level);
            }
        },
        ALL,
    ),
    (
        "the node settles one notice early",
        |after| {
            if after.notifying() && after.word(PENDING).is_power_of_two() {
                after.settle();
            }
        },
        ALL,
    ),
    (
        "nobody is asked whom a notice finds",
        |after| {
            if after.kind() == NOTIFIED && after.notifying() {
                let before = after.word_before(PENDING);
                *after.word(PENDING) &= before;
                after.ask_only(|_| true);
            }
        },
        ALL,
    ),
    (
        "the receiver of a notice does not learn",
        |after| {
            if after.kind() == NOTIFIED {
                after.forget(after.receiver);
            }
        },
        ALL,
    ),
    (
        "the node to which it attaches does not learn",
        |after| {
            if after.kind() == ATTACHED {
                after.forget(after.receiver);
            }
        },
        ALL,
    ),
    (
        "nothing is learned by a copy",
        |after| {
            if after.kind() == COPIED {
                after.forget(after.sender);
            }
        },
        "nothing else, arriving",
    ),
    (
        "nothing is learned by a copy or by attaching",
        |after| {
            if after.kind() != NOTIFIED {
                after.forget(after.sender);
            }
        },
        "every order, last, in turn, nothing else, arriving",
    ),
    (
        "a new node is put in front of those that are there",
        |after| after.put_in_front(),
        "nothing else, arriving",
    ),
    (
        "the attach level is one too high",
        |after| {
            let (level, digits) = (*after.word(LEVEL) + 1, after.state[DIGITS]);
            if after.kind() == ATTACHED && after.notifying() && level < digits {
                *after.word(LEVEL) = level;
                after.ask_only(|shares| shares >= level);
            }
        },
        ALL,
    ),
    ("the attach level is 0", |after| *after.word(LEVEL) = 0, ALL),
    (
        "a wait is held",
        |after| {
            if after.kind() == ATTACHED {
                after.refuse(14);
            }
        },
        ALL,
    ),
];

#[test]
fn a_join_that_goes_wrong_is_seen() {
    for (what, join, by) in WRONG {
        let wrong = Spoiled { join, ..UNSPOILED };
        is_seen(what, wrong, &TRIALS, by);
    }
}

/// Where it waits, attaches and gives notice nothing is new to it.
#[test]
fn a_node_that_joins_alone_learns_all_by_its_copies() {
    let join: SpoilJoin = |after| {
        if after.kind() != COPIED {
            after.forget(after.sender);
        }
    };
    let untaught = Spoiled { join, ..UNSPOILED };
    every_order(&untaught, SIZES, PAPER).unwrap();
    last(&untaught, &Second, PAPER).unwrap();
}
