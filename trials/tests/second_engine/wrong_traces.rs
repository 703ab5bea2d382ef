//! Engines that check a trace wrong: what they are made of, and the trials that must see them, also where two engines are wrong together.

use trials::engine::{Engine, Second};
use trials::failures::Literal;
use trials::second::memory::{record, COUNT};
use trials::traces::{accepted, by_hand, by_lookups, damaged, every_file, every_lookup};
use trials::traces::{every_path, faulty, in_order, most, passed, Passed};

use crate::seen::{is_seen, Sees};
use crate::spoiled::{AfterTrace, SpoilTrace, Spoiled, UNSPOILED};

const TRIALS: [Sees; 10] = [
    ("by hand", |a, b| by_hand(a, b).is_err()),
    ("in order", |a, b| in_order(a, b).is_err()),
    ("every file", |a, b| every_file(a, b).is_err()),
    ("every path", |a, b| every_path(a, b).is_err()),
    ("every lookup", |a, b| every_lookup(a, b).is_err()),
    ("by its lookups", |a, b| by_lookups(a, b).is_err()),
    ("accepted", |a, b| accepted(a, b).is_err()),
    ("faulty", |a, b| faulty(a, b).is_err()),
    ("damaged", |a, b| damaged(a, b).is_err()),
    ("most", |a, b| most(a, b).is_err()),
];

/// What goes wrong, and by which of the trials it must be seen.
pub type Wrong = (&'static str, SpoilTrace, &'static str);

pub fn are_seen(wrong: &[Wrong]) {
    for &(what, trace, by) in wrong {
        let wrong = Spoiled { trace, ..UNSPOILED };
        is_seen(what, wrong, &TRIALS, by);
    }
}

/// May a path step from a node to the next?
pub type Allowed = fn(&Literal, &Passed, u64) -> bool;

/// As it should be.
pub const BY_THE_ENTRY: Allowed = |literal, at, next| {
    let entry = literal.entry(at.node, at.destination);
    entry.contains(&next)
};

/// The paths in front of a file that can be read, as a file, and how many bytes are behind them.
pub struct Front {
    pub file: Vec<u8>,
    pub behind: usize,
}

impl AfterTrace<'_> {
    pub fn is(&self, refusal: u64) -> bool {
        self.answer & 0xff == refusal
    }

    /// Is it past 1 and 2?
    pub fn judged(&self) -> bool {
        !self.is(1) && !self.is(2)
    }

    pub fn count(&self) -> u64 {
        self.state.get(COUNT).copied().unwrap_or(0)
    }

    pub fn is_node(&self, number: u64) -> bool {
        (1..=self.count()).contains(&number)
    }

    /// Of a state that is judged.
    pub fn status(&self, node: u64) -> u64 {
        let [_, status, ..] = *record(self.state.first_chunk().unwrap(), node as usize);
        status
    }

    /// Every number of the file; none where it is refused before 9.
    pub fn read(&self) -> Vec<Passed> {
        let read = passed(self.trace, 1..=9).filter(|_| self.judged());
        read.unwrap_or_default()
    }

    /// The answers that name each of these numbers that no node has, in order.
    pub fn no_nodes(&self, all: &[Passed]) -> Vec<u64> {
        let no_node = all.iter().filter(|at| !self.is_node(at.node));
        no_node.map(|at| at.refused(9)).collect()
    }

    /// The same of each step between nodes that is not allowed; the state is judged.
    pub fn wrong_steps(&self, all: &[Passed], allowed: Allowed) -> Vec<u64> {
        let (state, tables) = (self.state.first_chunk(), self.tables.first_chunk());
        let literal = Literal::of(state.unwrap(), tables.unwrap(), 0);
        let wrong = |at: &&Passed| match at.next {
            Some(next) => {
                let nodes = [at.node, next, at.destination];
                nodes.iter().all(|&node| self.is_node(node)) && !allowed(&literal, at, next)
            }
            None => false,
        };
        let steps = all.iter().filter(wrong);
        steps.map(|at| at.refused(23)).collect()
    }

    /// Takes other steps for allowed ones.
    pub fn steps(&mut self, allowed: Allowed) {
        if self.is(0) || self.is(23) {
            let wrong = self.wrong_steps(&self.read(), allowed);
            self.answer = wrong.first().copied().unwrap_or(0);
        }
    }

    pub fn front(&self) -> Front {
        let (mut paths, mut end) = (0, self.trace.len().min(1));
        while paths < self.trace.first().copied().unwrap_or(0) {
            let nodes = self.trace.get(end).copied().unwrap_or(0);
            let next = end + 1 + usize::from(nodes);
            if !(1..=9).contains(&nodes) || next > self.trace.len() {
                break;
            }
            (paths, end) = (paths + 1, next);
        }
        Front {
            file: [&[paths], &self.trace[self.trace.len().min(1)..end]].concat(),
            behind: self.trace.len() - end,
        }
    }

    /// Is answered as another file is.
    pub fn other_file(&mut self, trace: &[u8]) {
        self.answer = Second.trace(self.state, self.tables, trace);
    }
}
