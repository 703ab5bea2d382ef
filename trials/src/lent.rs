//! The memory that a caller lends: longer than any call needs, full of noise, lent only in part.

use crate::engine::Engine;
use crate::random::Rng;
use crate::script::{Call, Lend, Line};
use crate::second::memory::{State, Tables, STATE_WORDS, TABLE_BYTES};
use crate::second::{Counts, LONGEST_IMAGE};

/// Everything there is; the parts past what is lent, and past what a call may use, are guards.
pub const ALL: Lend = Lend {
    state: STATE_WORDS + 16,
    tables: TABLE_BYTES + 128,
    out: LONGEST_IMAGE + 128,
};

/// Just what a call uses of state and tables.
pub const EXACT: Lend = Lend {
    state: STATE_WORDS,
    tables: TABLE_BYTES,
    ..ALL
};

#[derive(Debug, PartialEq, Eq)]
pub struct Lent {
    pub state: Vec<u64>,
    pub tables: Vec<u8>,
    pub out: Vec<u8>,
    /// Counts, of which nine are always lent, and guards after them.
    pub counts: [u64; 16],
    pub lend: Lend,
}

impl Lent {
    /// The same noise each time, so that a script alone repeats a case.
    pub fn noise() -> Lent {
        Lent::of_noise(1)
    }

    /// Other noise for each seed.
    pub fn of_noise(seed: u64) -> Lent {
        let mut rng = Rng::new(seed);
        let mut lent = Lent {
            state: (0..ALL.state).map(|_| rng.word()).collect(),
            tables: (0..ALL.tables).map(|_| rng.word() as u8).collect(),
            out: (0..ALL.out).map(|_| rng.word() as u8).collect(),
            counts: [0; 16],
            lend: ALL,
        };
        lent.spoil_counts();
        lent
    }

    /// Puts noise where counts go: those of an earlier survey would hide that one is not written.
    pub fn spoil_counts(&mut self) {
        let mut rng = Rng::new(2);
        self.counts.fill_with(|| rng.word());
    }

    /// Does what the line says; a call's packed answer, 0 for other lines.
    pub fn obey(&mut self, engine: &dyn Engine, line: &Line) -> u64 {
        match line {
            Line::Call(call) => return self.call(engine, call),
            Line::Lend(lend) => self.lend = *lend,
            Line::Word { place, value } => self.state[*place] = *value,
            Line::Byte { place, value } => self.tables[*place] = *value,
        }
        0
    }

    pub fn call(&mut self, engine: &dyn Engine, call: &Call) -> u64 {
        let state = &mut self.state[..self.lend.state];
        let tables = &mut self.tables[..self.lend.tables];
        match call {
            Call::Found { settings, id } => engine.found(state, tables, *settings, *id),
            Call::Read { image } => engine.read(state, tables, image),
            Call::Begin { id, gateway } => engine.begin(state, tables, *id, *gateway),
            Call::Withdraw { node } => engine.withdraw(state, tables, *node),
            Call::Deliver { sender, receiver } => engine.deliver(state, tables, *sender, *receiver),
            Call::Lookup { from, to, failed } => engine.lookup(state, tables, *from, *to, *failed),
            Call::Verdict => engine.verdict(state, tables),
            Call::Write { version } => {
                engine.write(state, tables, *version, &mut self.out[..self.lend.out])
            }
            Call::Sound => engine.sound(state, tables),
            Call::Survey { failed } => {
                let counts = self.counts.first_chunk_mut().expect("there is enough");
                engine.survey(state, tables, *failed, counts)
            }
            Call::Trace { trace } => engine.trace(state, tables, trace),
            Call::Fill => engine.fill(state, tables, &mut self.out[..self.lend.out]),
        }
    }

    /// The part of the state that calls use, however much is lent.
    pub fn used_state(&self) -> &State {
        self.state.first_chunk().expect("there is enough")
    }

    pub fn used_tables(&self) -> &Tables {
        self.tables.first_chunk().expect("there is enough")
    }

    /// What a survey counted, if one was taken last.
    pub fn used_counts(&self) -> &Counts {
        self.counts.first_chunk().expect("there is enough")
    }
}

/// Copies into the memory that is there already.
impl Clone for Lent {
    fn clone(&self) -> Lent {
        Lent {
            state: self.state.clone(),
            tables: self.tables.clone(),
            out: self.out.clone(),
            counts: self.counts,
            lend: self.lend,
        }
    }

    fn clone_from(&mut self, other: &Lent) {
        self.state.clone_from(&other.state);
        self.tables.clone_from(&other.tables);
        self.out.clone_from(&other.out);
        self.counts = other.counts;
        self.lend = other.lend;
    }
}
