//! Wrong turns of a withdrawal: each is seen by trials that could meet it, also where two engines take it together.

use trials::second::memory::COUNT;
use trials::withdrawals::{again, apart, by_hand, down, each_number, in_order, last, undone};

use crate::seen::{is_seen, Sees};
use crate::spoiled::{AfterWithdrawal, SpoilWithdrawal, Spoiled, UNSPOILED};

const TRIALS: [Sees; 8] = [
    ("by hand", |a, b| by_hand(a, b).is_err()),
    ("in order", |a, b| in_order(a, b).is_err()),
    ("last", |a, b| last(a, b).is_err()),
    ("each number", |a, b| each_number(a, b).is_err()),
    ("undone", |a, b| undone(a, b).is_err()),
    ("apart", |a, b| apart(a, b).is_err()),
    ("again", |a, b| again(a, b).is_err()),
    ("down", |a, b| down(a, b).is_err()),
];
const ALL: &str = "by hand, in order, last, each number, undone, apart, again, down";
/// Behind the last node's there is nothing more, and no memory more than it needs.
const ALL_BUT_LAST: &str = "by hand, in order, each number, undone, apart, again, down";

impl AfterWithdrawal<'_> {
    fn taken(&self) -> bool {
        self.answer == 0
    }

    /// The highest-numbered node before it.
    fn highest(&self) -> usize {
        self.before.0[COUNT] as usize
    }

    /// The status of the node before it, if there was one.
    fn status(&self) -> Option<u64> {
        let is_node = self.node >= 1 && self.node <= self.before.0[COUNT];
        is_node.then(|| self.before.0[8 * self.node as usize + 1])
    }

    /// Nothing has changed, and this is the answer.
    fn refuse(&mut self, refusal: u64) {
        self.state.copy_from_slice(&self.before.0);
        self.tables.copy_from_slice(&self.before.1);
        self.answer = refusal;
    }

    /// The highest-numbered node is gone after all.
    fn take(&mut self) {
        let node = self.highest();
        self.state[COUNT] -= 1;
        self.state[8 * node..8 * node + 8].fill(0);
        self.tables[512 * (node - 1)..512 * node].fill(0);
        self.answer = 0;
    }

    /// Words of the node's record are as they were.
    fn keep(&mut self, words: std::ops::Range<usize>) {
        let record = 8 * self.highest();
        let words = record + words.start..record + words.end;
        self.state[words.clone()].copy_from_slice(&self.before.0[words]);
    }
}

/// What goes wrong, and by which of the trials it must be seen.
const WRONG: [(&str, SpoilWithdrawal, &str); 24] = [
    (
        "the table stays",
        |after| {
            if after.taken() {
                after.tables.copy_from_slice(&after.before.1);
            }
        },
        ALL,
    ),
    (
        "the record stays",
        |after| {
            if after.taken() {
                after.keep(0..8);
            }
        },
        ALL,
    ),
    (
        "the counts of the record stay",
        |after| {
            if after.taken() {
                after.keep(6..8);
            }
        },
        ALL,
    ),
    (
        "the number of nodes stays",
        |after| {
            if after.taken() {
                after.state[COUNT] += 1;
            }
        },
        ALL,
    ),
    (
        "the answer has the number",
        |after| {
            if after.taken() {
                after.answer = after.node << 8;
            }
        },
        ALL,
    ),
    (
        "a waiting node is refused",
        |after| {
            if after.taken() && after.status() == Some(2) {
                after.refuse(20);
            }
        },
        "by hand, last, each number, undone, apart, again, down",
    ),
    (
        "a copying node is refused",
        |after| {
            if after.taken() && after.status() == Some(1) {
                after.refuse(20);
            }
        },
        ALL,
    ),
    (
        "a notifying node is withdrawn",
        |after| {
            if after.answer == 20 && after.status() == Some(3) {
                after.take();
            }
        },
        "by hand, in order, each number, down",
    ),
    (
        "a node in system is withdrawn",
        |after| {
            if after.answer == 20 && after.status() == Some(0) {
                after.take();
            }
        },
        "by hand, last, each number, down",
    ),
    (
        "a lower node stands for the highest",
        |after| {
            if after.answer == 19 && matches!(after.status(), Some(1 | 2)) {
                after.take();
            }
        },
        "by hand, in order, each number",
    ),
    (
        "20 is judged before 19",
        |after| {
            if after.answer == 19 && matches!(after.status(), Some(0 | 3)) {
                after.answer = 20;
            }
        },
        "by hand, in order, last, each number, down",
    ),
    (
        "19 is judged before 9",
        |after| after.answer += 10 * u64::from(after.answer == 9),
        "by hand, in order, last, each number",
    ),
    (
        "9 is judged before 2",
        |after| {
            if after.answer == 2 && after.status().is_none() {
                after.answer = 9;
            }
        },
        "in order",
    ),
    (
        "19 is judged before 2",
        |after| {
            if after.answer == 2 && after.node == 1 {
                after.answer = 19;
            }
        },
        "in order",
    ),
    (
        "2 is judged before 1",
        |after| after.answer += u64::from(after.answer == 1),
        "in order",
    ),
    (
        "the state is not judged",
        |after| {
            if after.answer == 2 && after.node as usize == after.highest() {
                after.take();
            }
        },
        "in order",
    ),
    (
        "the number is cut to 8 bits",
        |after| {
            if after.answer == 9 && after.node as u8 as usize == after.highest() {
                after.take();
            }
        },
        "by hand, each number",
    ),
    (
        "the number is cut to 32 bits",
        |after| {
            if after.answer == 9 && after.node as u32 as usize == after.highest() {
                after.take();
            }
        },
        "by hand, each number",
    ),
    (
        "a refused one changes a word",
        |after| {
            let last = after.state.last_mut().filter(|_| after.answer != 0);
            last.into_iter().for_each(|word| *word ^= 1);
        },
        "by hand, in order, last, each number, undone, down",
    ),
    (
        "its target is told",
        |after| {
            if after.taken() {
                let target = after.before.0[8 * after.highest() + 3] as usize;
                after.state[8 * target + 6] += 1;
            }
        },
        ALL,
    ),
    (
        "another table is changed",
        |after| {
            if after.taken() {
                after.tables[512 * (after.highest() - 1) - 1] ^= 1;
            }
        },
        ALL,
    ),
    (
        "the next table is changed",
        |after| {
            if after.taken() {
                let next = after.tables.get_mut(512 * after.highest());
                next.into_iter().for_each(|byte| *byte ^= 1);
            }
        },
        ALL_BUT_LAST,
    ),
    (
        "a word past the state is changed",
        |after| {
            let past = after.state.get_mut(520).filter(|_| after.answer == 0);
            past.into_iter().for_each(|word| *word ^= 1);
        },
        ALL_BUT_LAST,
    ),
    (
        "a byte past the tables is changed",
        |after| {
            let past = after.tables.get_mut(32_768).filter(|_| after.answer == 0);
            past.into_iter().for_each(|byte| *byte ^= 1);
        },
        ALL_BUT_LAST,
    ),
];

#[test]
fn a_withdrawal_that_goes_wrong_is_seen() {
    for (what, withdraw, by) in WRONG {
        let wrong = Spoiled {
            withdraw,
            ..UNSPOILED
        };
        is_seen(what, wrong, &TRIALS, by);
    }
}
