//! Wrong turns of lookups and surveys around failed nodes: each is seen by trials that could meet it, also where two engines take it together.

use trials::engine::{Engine, Second};
use trials::failures::{any_set, by_hand, every_set, in_order, kept, survived, Literal};
use trials::second::memory::COUNT;
use trials::second::{Counts, LOST};
use trials::surveys::left;

use crate::seen::{is_seen, Sees};
use crate::spoiled::{AfterLookup, AfterSurvey, SpoilLookup, SpoilSurvey, Spoiled, UNSPOILED};

const TRIALS: [Sees; 6] = [
    ("by hand", |a, b| by_hand(a, b).is_err()),
    ("in order", |a, b| in_order(a, b).is_err()),
    ("every set", |a, b| every_set(a, b).is_err()),
    ("any set", |a, b| any_set(a, b).is_err()),
    ("survived", |a, b| survived(a, b).is_err()),
    ("kept", |a, b| kept(a, b).is_err()),
];

/// Of an entry the next node and how many hops it is, for a lookup that has so many hops behind it.
type Rule = fn(&Literal, &[u64], u64) -> Option<(u64, u64)>;

/// By a wrong rule: whether the lookup arrives, its hops, and its last node.
fn walked(literal: &Literal, from: u64, to: u64, rule: Rule) -> (bool, u64, u64) {
    let (mut at, mut hops) = (from, 0);
    while at != to {
        let Some((next, more)) = rule(literal, &literal.entry(at, to), hops) else {
            return (false, hops, at);
        };
        (at, hops) = (next, hops + more);
    }
    (true, hops, at)
}

/// The frontmost that has not failed.
fn frontmost(literal: &Literal, entry: &[u64]) -> Option<(u64, u64)> {
    let node = entry.iter().find(|&&node| !literal.has_failed(node));
    node.map(|&node| (node, 1))
}

const FIRST: Rule = |_, entry, _| entry.first().map(|&node| (node, 1));

const PASSED_ARE_HOPS: Rule = |literal, entry, _| {
    let passed = entry.iter().take_while(|&&node| literal.has_failed(node));
    let more = 1 + passed.count() as u64;
    frontmost(literal, entry).map(|(node, _)| (node, more))
};

impl AfterLookup<'_> {
    fn taken(&self) -> bool {
        self.answer & 0xff == 0
    }

    fn lost(&self) -> bool {
        self.answer & 0xffff == 0
    }

    fn count(&self) -> u64 {
        self.state[COUNT]
    }

    /// Is this the number of a node that has failed?
    fn has_failed(&self, node: u64) -> bool {
        (1..=64).contains(&node) && self.failed >> (node - 1) & 1 == 1
    }

    /// Goes another way.
    fn walk(&mut self, rule: Rule) {
        let (state, tables) = (self.state.first_chunk(), self.tables.first_chunk());
        let literal = Literal::of(state.unwrap(), tables.unwrap(), self.failed);
        let (arrived, hops, last) = walked(&literal, self.from, self.to, rule);
        self.answer = u64::from(arrived) << 8 | hops << 16 | last << 24;
    }

    /// Goes another way where it is taken.
    fn turn(&mut self, rule: Rule) {
        if self.taken() {
            self.walk(rule);
        }
    }

    /// Is answered as if other nodes had failed.
    fn other_set(&mut self, failed: u64) {
        self.answer = Second.lookup(self.state, self.tables, self.from, self.to, failed);
    }
}

/// What goes wrong in lookups, and by which of the trials it must be seen.
const WRONG_LOOKUPS: [(&str, SpoilLookup, &str); 22] = [
    (
        "a failed front is taken",
        |after| after.turn(FIRST),
        "by hand, every set, any set, survived, kept",
    ),
    (
        "a failed front ends it",
        |after| after.turn(|literal, entry, _| frontmost(literal, &entry[..entry.len().min(1)])),
        "by hand, every set, any set, survived, kept",
    ),
    (
        "only two are tried",
        |after| after.turn(|literal, entry, _| frontmost(literal, &entry[..entry.len().min(2)])),
        "by hand, every set, any set, survived, kept",
    ),
    (
        "the last that is left is taken",
        |after| {
            after.turn(|literal, entry, _| {
                let turned: Vec<u64> = entry.iter().rev().copied().collect();
                frontmost(literal, &turned)
            })
        },
        "by hand, every set, any set, kept",
    ),
    (
        "the lowest number that is left is taken",
        |after| {
            after.turn(|literal, entry, _| {
                let mut sorted = entry.to_vec();
                sorted.sort();
                frontmost(literal, &sorted)
            })
        },
        "every set, any set, kept",
    ),
    (
        "only the first hop goes around",
        |after| {
            after.turn(|literal, entry, hops| match hops {
                0 => frontmost(literal, entry),
                _ => FIRST(literal, entry, hops),
            })
        },
        "by hand, every set, any set, kept",
    ),
    (
        "nodes passed over are hops",
        |after| after.turn(PASSED_ARE_HOPS),
        "by hand, every set, any set, kept",
    ),
    (
        "a failed start is let pass",
        |after| {
            if after.answer == 21 && !after.has_failed(after.to) {
                after.walk(|literal, entry, _| frontmost(literal, entry));
            }
        },
        "by hand, in order, every set, any set",
    ),
    (
        "a failed destination is let pass",
        |after| {
            if after.answer == 21 && !after.has_failed(after.from) {
                after.walk(FIRST);
            }
        },
        "by hand, in order, every set, any set",
    ),
    (
        "a failed node finds itself",
        |after| {
            if after.answer == 21 && after.from == after.to {
                after.walk(FIRST);
            }
        },
        "by hand, in order, every set, any set",
    ),
    (
        "a failed end is lost",
        |after| {
            if after.answer == 21 {
                after.answer = after.from << 24;
            }
        },
        "by hand, in order, every set, any set",
    ),
    (
        "21 is judged before 9",
        |after| {
            if after.answer == 9 && (after.has_failed(after.from) || after.has_failed(after.to)) {
                after.answer = 21;
            }
        },
        "by hand, in order, any set",
    ),
    (
        "21 is judged before 2",
        |after| {
            if after.answer == 2 && after.has_failed(after.to) {
                after.answer = 21;
            }
        },
        "in order",
    ),
    (
        "21 is judged before 1",
        |after| {
            if after.answer == 1 && after.has_failed(after.from) {
                after.answer = 21;
            }
        },
        "in order",
    ),
    (
        "a number that no node has is refused",
        |after| {
            if after.taken() && after.failed.checked_shr(after.count() as u32) > Some(0) {
                after.answer = 9;
            }
        },
        "by hand, in order, any set, kept",
    ),
    (
        "bit u stands for node u",
        |after| after.other_set(after.failed >> 1),
        "by hand, in order, every set, any set, survived, kept",
    ),
    (
        "the set is cut to 32 bits",
        |after| after.other_set(after.failed & 0xffff_ffff),
        "by hand, any set, survived",
    ),
    (
        "node 64 does not fail",
        |after| after.other_set(after.failed & !(1 << 63)),
        "by hand, any set",
    ),
    (
        "a set of all numbers is none",
        |after| after.other_set(after.failed.wrapping_add(1) & after.failed),
        "by hand, in order, every set, any set",
    ),
    (
        "a lost one ends at its destination",
        |after| {
            if after.lost() {
                after.answer = after.answer & 0xff_ffff | after.to << 24;
            }
        },
        "by hand, every set, any set, survived, kept",
    ),
    (
        "a lost one has a hop more",
        |after| after.answer += u64::from(after.lost()) << 16,
        "by hand, every set, any set, survived, kept",
    ),
    (
        "a lost one is refused",
        |after| after.answer |= 21 * u64::from(after.lost()),
        "by hand, every set, any set, survived, kept",
    ),
];

impl AfterSurvey<'_> {
    fn taken(&self) -> bool {
        self.answer == 0
    }

    /// How many ordered pairs there are, and how many of nodes that have not failed.
    fn pairs(&self) -> [u64; 2] {
        let state = self.state.first_chunk().unwrap();
        let of = |failed| left(state, failed).count() as u64;
        [of(0), of(self.failed)].map(|nodes| nodes * nodes.saturating_sub(1))
    }

    /// Counts by another way where it is taken.
    fn turn(&mut self, rule: Rule) {
        if !self.taken() {
            return;
        }
        let (state, tables) = (self.state.first_chunk(), self.tables.first_chunk());
        let literal = Literal::of(state.unwrap(), tables.unwrap(), self.failed);
        let nodes = left(state.unwrap(), self.failed);
        *self.counts = Counts::default();
        for from in nodes.clone() {
            for to in nodes.clone().filter(|&to| to != from) {
                let (arrived, hops, _) = walked(&literal, from, to, rule);
                let place = if arrived { hops as usize - 1 } else { LOST };
                self.counts[place.min(LOST)] += 1;
            }
        }
    }

    /// Counts as if other nodes had failed.
    fn other_set(&mut self, failed: u64) {
        self.answer = Second.survey(self.state, self.tables, failed, self.counts);
    }

    /// Is refused after all, and leaves the counts.
    fn refuse(&mut self) {
        *self.counts = self.before;
        self.answer = 21;
    }
}

/// The same of surveys.
const WRONG_SURVEYS: [(&str, SpoilSurvey, &str); 12] = [
    (
        "pairs with a failed node are lost",
        |after| {
            if after.taken() {
                let [all, left] = after.pairs();
                after.counts[LOST] += all - left;
            }
        },
        "by hand, in order, every set, any set, survived",
    ),
    (
        "nobody has failed",
        |after| after.other_set(0),
        "by hand, in order, every set, any set",
    ),
    (
        "a failed front is taken",
        |after| after.turn(FIRST),
        "by hand, every set, any set",
    ),
    (
        "a failed front ends it",
        |after| after.turn(|literal, entry, _| frontmost(literal, &entry[..entry.len().min(1)])),
        "by hand, every set, any set, survived",
    ),
    (
        "nodes passed over are hops",
        |after| after.turn(PASSED_ARE_HOPS),
        "by hand, every set, any set",
    ),
    (
        "lost pairs are not counted",
        |after| after.counts[LOST] *= u64::from(!after.taken()),
        "by hand, in order, every set, any set",
    ),
    (
        "refused where a node has failed",
        |after| {
            let [all, left] = if after.taken() { after.pairs() } else { [0; 2] };
            if all != left {
                after.refuse();
            }
        },
        "by hand, in order, every set, any set, survived",
    ),
    (
        "refused where all have failed",
        |after| {
            if after.taken() && after.pairs()[1] == 0 && after.failed != 0 {
                after.refuse();
            }
        },
        "by hand, in order, every set, any set",
    ),
    (
        "a number that no node has leaves nobody",
        |after| {
            let past = after
                .failed
                .checked_shr(after.state.get(COUNT).map_or(64, |&n| n as u32));
            if after.taken() && past > Some(0) {
                *after.counts = Counts::default();
            }
        },
        "by hand, any set",
    ),
    (
        "the set is cut to 32 bits",
        |after| after.other_set(after.failed & 0xffff_ffff),
        "by hand, any set",
    ),
    (
        "bit u stands for node u",
        |after| after.other_set(after.failed >> 1),
        "by hand, in order, every set, any set",
    ),
    (
        "a refused one clears the counts",
        |after| {
            if !after.taken() {
                *after.counts = Counts::default();
            }
        },
        "in order",
    ),
];

#[test]
fn a_lookup_that_goes_wrong_around_failed_nodes_is_seen() {
    for (what, lookup, by) in WRONG_LOOKUPS {
        let wrong = Spoiled {
            lookup,
            ..UNSPOILED
        };
        is_seen(what, wrong, &TRIALS, by);
    }
}

#[test]
fn a_survey_that_goes_wrong_around_failed_nodes_is_seen() {
    for (what, survey, by) in WRONG_SURVEYS {
        let wrong = Spoiled {
            survey,
            ..UNSPOILED
        };
        is_seen(what, wrong, &TRIALS, by);
    }
}
