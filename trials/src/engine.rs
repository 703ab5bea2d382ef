//! An engine as a caller of the C interface sees it: memory first, answers packed into one word.

use crate::second::{self, Answer, Counts};

/// The twelve calls. Memory is lent for writing even where a call must not write, so that a trial sees it if one does. In a set of failed
/// nodes bit u − 1 stands for node u.
pub trait Engine {
    fn name(&self) -> &str;

    fn sound(&self, state: &mut [u64], tables: &mut [u8]) -> u64;

    fn found(&self, state: &mut [u64], tables: &mut [u8], settings: [u64; 3], id: u32) -> u64;

    fn read(&self, state: &mut [u64], tables: &mut [u8], image: &[u8]) -> u64;

    fn begin(&self, state: &mut [u64], tables: &mut [u8], id: u32, gateway: u64) -> u64;

    fn withdraw(&self, state: &mut [u64], tables: &mut [u8], node: u64) -> u64;

    fn deliver(&self, state: &mut [u64], tables: &mut [u8], sender: u64, receiver: u64) -> u64;

    fn lookup(&self, state: &mut [u64], tables: &mut [u8], from: u64, to: u64, failed: u64) -> u64;

    fn verdict(&self, state: &mut [u64], tables: &mut [u8]) -> u64;

    fn write(&self, state: &mut [u64], tables: &mut [u8], version: u64, out: &mut [u8]) -> u64;

    fn survey(&self, state: &mut [u64], tables: &mut [u8], failed: u64, counts: &mut Counts)
        -> u64;

    fn trace(&self, state: &mut [u64], tables: &mut [u8], trace: &[u8]) -> u64;

    fn fill(&self, state: &mut [u64], tables: &mut [u8], out: &mut [u8]) -> u64;
}

/// The second engine.
pub struct Second;

impl Engine for Second {
    fn name(&self) -> &str {
        "second"
    }

    fn sound(&self, state: &mut [u64], tables: &mut [u8]) -> u64 {
        match second::lent_and_sound(state, tables) {
            Ok(_) => 0,
            Err(refusal) => refusal as u64,
        }
    }

    fn found(
        &self,
        state: &mut [u64],
        tables: &mut [u8],
        [base, digits, depth]: [u64; 3],
        id: u32,
    ) -> u64 {
        second::found(state, tables, base, digits, depth, id).pack()
    }

    fn read(&self, state: &mut [u64], tables: &mut [u8], image: &[u8]) -> u64 {
        second::read(state, tables, image).pack()
    }

    fn begin(&self, state: &mut [u64], tables: &mut [u8], id: u32, gateway: u64) -> u64 {
        second::begin(state, tables, id, gateway).pack()
    }

    fn withdraw(&self, state: &mut [u64], tables: &mut [u8], node: u64) -> u64 {
        second::withdraw(state, tables, node).pack()
    }

    fn deliver(&self, state: &mut [u64], tables: &mut [u8], sender: u64, receiver: u64) -> u64 {
        second::deliver(state, tables, sender, receiver).pack()
    }

    fn lookup(&self, state: &mut [u64], tables: &mut [u8], from: u64, to: u64, failed: u64) -> u64 {
        second::lookup(state, tables, from, to, failed).pack()
    }

    fn verdict(&self, state: &mut [u64], tables: &mut [u8]) -> u64 {
        second::verdict(state, tables).pack()
    }

    fn write(&self, state: &mut [u64], tables: &mut [u8], version: u64, out: &mut [u8]) -> u64 {
        second::write(state, tables, version, out).pack()
    }

    fn survey(
        &self,
        state: &mut [u64],
        tables: &mut [u8],
        failed: u64,
        counts: &mut Counts,
    ) -> u64 {
        let answer = second::survey(state, tables, failed);
        if answer.refusal == 0 {
            *counts = answer.counts;
        }
        answer.pack()
    }

    fn trace(&self, state: &mut [u64], tables: &mut [u8], trace: &[u8]) -> u64 {
        second::trace(state, tables, trace).pack()
    }

    fn fill(&self, state: &mut [u64], tables: &mut [u8], out: &mut [u8]) -> u64 {
        second::fill(state, tables, out).pack()
    }
}
