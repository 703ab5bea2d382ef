//! A lookup around failed nodes, read from the words and bytes of a sound state, slow and literal.

use crate::lent::Lent;
use crate::panel::matched;
use crate::second::memory::{State, Tables, COUNT};
use crate::second::{Counts, LOST};
use crate::surveys::left;

/// A sound state, and the nodes that have failed.
#[derive(Clone, Copy)]
pub struct Literal<'a> {
    state: &'a State,
    tables: &'a Tables,
    failed: u64,
}

/// The nodes that a lookup goes through, its start first, how many it passed over at each that it did not end at by arriving, and whether it arrived.
#[derive(Clone, Debug, PartialEq, Eq)]
pub struct Way {
    pub nodes: Vec<u64>,
    pub passed_over: Vec<u64>,
    pub arrived: bool,
}

impl<'a> Literal<'a> {
    pub fn new(memory: &'a Lent, failed: u64) -> Literal<'a> {
        Literal::of(memory.used_state(), memory.used_tables(), failed)
    }

    pub fn of(state: &'a State, tables: &'a Tables, failed: u64) -> Literal<'a> {
        Literal {
            state,
            tables,
            failed,
        }
    }

    pub fn has_failed(&self, node: u64) -> bool {
        self.failed >> (node - 1) & 1 == 1
    }

    /// The entry that the rule names on the way from a node to another; none from a node to itself.
    pub fn entry(&self, at: u64, to: u64) -> Vec<u64> {
        if at == to {
            return vec![];
        }
        let level = matched(self.state, at as usize, to as usize);
        let digit = self.state[8 * to as usize] >> (4 * level) & 15;
        let place = 512 * (at - 1) + 64 * level + 4 * digit;
        let slots = &self.tables[place as usize..][..4];
        let filled = slots.iter().filter(|&&slot| slot != 0);
        filled.map(|&slot| slot.into()).collect()
    }

    pub fn way(&self, from: u64, to: u64) -> Way {
        let mut way = Way {
            nodes: vec![from],
            passed_over: vec![],
            arrived: from == to,
        };
        let mut at = from;
        while !way.arrived {
            let entry = self.entry(at, to);
            let next = entry.iter().position(|&node| !self.has_failed(node));
            way.passed_over.push(next.unwrap_or(entry.len()) as u64);
            let Some(slot) = next else {
                break;
            };
            at = entry[slot];
            way.nodes.push(at);
            way.arrived = at == to;
        }
        way
    }

    /// The packed answer, whatever numbers are passed.
    pub fn lookup(&self, from: u64, to: u64) -> u64 {
        let count = self.state[COUNT];
        if from == 0 || to == 0 || from > count || to > count {
            return 9;
        }
        if self.has_failed(from) || self.has_failed(to) {
            return 21;
        }
        self.way(from, to).answer()
    }

    /// The packed answer of document 01's rule, which knows of no failed nodes: always the first of the entry.
    pub fn by_the_first_of_each(&self, from: u64, to: u64) -> u64 {
        let mut nodes = vec![from];
        let mut at = from;
        while at != to {
            match self.entry(at, to).first() {
                Some(&next) => at = next,
                None => break,
            }
            nodes.push(at);
        }
        packed(at == to, &nodes)
    }

    pub fn survey(&self) -> Counts {
        let nodes = left(self.state, self.failed);
        let mut counts = Counts::default();
        for from in nodes.clone() {
            for to in nodes.clone().filter(|&to| to != from) {
                let way = self.way(from, to);
                let lost = !way.arrived;
                counts[if lost { LOST } else { way.nodes.len() - 2 }] += 1;
            }
        }
        counts
    }
}

impl Way {
    pub fn answer(&self) -> u64 {
        packed(self.arrived, &self.nodes)
    }
}

fn packed(arrived: bool, nodes: &[u64]) -> u64 {
    let (hops, last) = (nodes.len() as u64 - 1, nodes[nodes.len() - 1]);
    u64::from(arrived) << 8 | hops << 16 | last << 24
}
