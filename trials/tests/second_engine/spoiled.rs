//! Engines that do something otherwise.

use trials::engine::{Engine, Second};
use trials::second::memory::{record, record_mut, Record, State, COUNT, MOST_NODES};
use trials::second::Counts;

/// The second engine, but spoiled in what it judges sound, or in what a founding, a reading, a beginning, a withdrawal, a delivery, a lookup, a verdict,
/// a writing, a survey, the check of a trace or a filling does. A delivery is spoiled in the records of its two nodes, or in all of its memory; a reading and a writing
/// in what they leave alone, or beside the image too.
pub struct Spoiled {
    pub judge: SpoilJudge,
    pub found: fn(&mut [u64]),
    pub read: fn(&mut [u64], &mut [u8], u64) -> u64,
    pub restore: SpoilReading,
    pub begin: fn(&mut [u64], &mut [u8], u64) -> u64,
    pub withdraw: SpoilWithdrawal,
    pub deliver: SpoilDelivery,
    pub join: SpoilJoin,
    pub lookup: SpoilLookup,
    pub verdict: fn(u64) -> u64,
    pub write: fn(&mut [u8]),
    pub save: SpoilWriting,
    pub survey: SpoilSurvey,
    pub trace: SpoilTrace,
    pub fill: SpoilFilling,
}

/// What is judged in place of a node's record.
pub type SpoilJudge = fn(&State, usize, &mut Record);

pub type SpoilReading = fn(&mut AfterReading);

/// Its memory before and after it, the image that was passed, and its answer.
pub struct AfterReading<'a> {
    pub before: (Vec<u64>, Vec<u8>),
    pub state: &'a mut [u64],
    pub tables: &'a mut [u8],
    pub image: &'a [u8],
    pub answer: u64,
}

pub type SpoilWriting = fn(&mut AfterWriting);

/// Its memory, the version that was passed, the output before and after it, and its answer.
pub struct AfterWriting<'a> {
    pub state: &'a mut [u64],
    pub tables: &'a mut [u8],
    pub version: u64,
    pub before: Vec<u8>,
    pub out: &'a mut [u8],
    pub answer: u64,
}

pub type SpoilWithdrawal = fn(&mut AfterWithdrawal);

/// Its memory before and after it, the number that was passed, and its answer.
pub struct AfterWithdrawal<'a> {
    pub before: (Vec<u64>, Vec<u8>),
    pub state: &'a mut [u64],
    pub tables: &'a mut [u8],
    pub node: u64,
    pub answer: u64,
}

pub type SpoilDelivery = fn(AfterDelivery);

/// The records of sender and receiver after it, the kind that it answers, 0 for a refusal, whether the sender settled, and the refusal.
pub struct AfterDelivery<'a> {
    pub sender: &'a mut Record,
    pub receiver: &'a mut Record,
    pub kind: u64,
    pub settled: bool,
    pub refusal: u64,
}

pub type SpoilJoin = fn(&mut AfterStep);

/// Of a delivery that is taken: its memory before and after it, sender and receiver, and its answer.
pub struct AfterStep<'a> {
    pub before: (Vec<u64>, Vec<u8>),
    pub state: &'a mut State,
    pub tables: &'a mut [u8],
    pub sender: usize,
    pub receiver: usize,
    pub answer: u64,
}

pub type SpoilLookup = fn(&mut AfterLookup);

/// Its memory, what was passed, and its answer.
pub struct AfterLookup<'a> {
    pub state: &'a mut [u64],
    pub tables: &'a mut [u8],
    pub from: u64,
    pub to: u64,
    pub failed: u64,
    pub answer: u64,
}

pub type SpoilSurvey = fn(&mut AfterSurvey);

/// Its memory, what was passed, its counts before and after it, and its answer.
pub struct AfterSurvey<'a> {
    pub state: &'a mut [u64],
    pub tables: &'a mut [u8],
    pub failed: u64,
    pub before: Counts,
    pub counts: &'a mut Counts,
    pub answer: u64,
}

pub type SpoilTrace = fn(&mut AfterTrace);

/// Its memory, the file that was passed, and its answer.
pub struct AfterTrace<'a> {
    pub state: &'a mut [u64],
    pub tables: &'a mut [u8],
    pub trace: &'a [u8],
    pub answer: u64,
}

pub type SpoilFilling = fn(&mut AfterFilling);

/// Its memory and the output before and after it, and its answer.
pub struct AfterFilling<'a> {
    pub before: (Vec<u64>, Vec<u8>, Vec<u8>),
    pub state: &'a mut [u64],
    pub tables: &'a mut [u8],
    pub out: &'a mut [u8],
    pub answer: u64,
}

pub const UNSPOILED: Spoiled = Spoiled {
    judge: |_, _, _| {},
    found: |_| {},
    read: |_, _, answer| answer,
    restore: |_| {},
    begin: |_, _, answer| answer,
    withdraw: |_| {},
    deliver: |_| {},
    join: |_| {},
    lookup: |_| {},
    verdict: |answer| answer,
    write: |_| {},
    save: |_| {},
    survey: |_| {},
    trace: |_| {},
    fill: |_| {},
};

impl Spoiled {
    /// The state with what is judged in place of each record.
    fn judged(&self, state: &mut State) {
        let lent = *state;
        for node in (1..=MOST_NODES).take_while(|&node| node as u64 <= lent[COUNT]) {
            (self.judge)(&lent, node, record_mut(state, node));
        }
    }

    /// The records of a delivery's two nodes.
    fn spoil_records(&self, state: &mut State, numbers: [usize; 2], answer: u64) {
        let [refusal, kind, _, settled, ..] = answer.to_le_bytes();
        let [mut sender, mut receiver] = numbers.map(|number| *record(state, number));
        (self.deliver)(AfterDelivery {
            sender: &mut sender,
            receiver: &mut receiver,
            kind: kind.into(),
            settled: settled == 1,
            refusal: refusal.into(),
        });
        *record_mut(state, numbers[1]) = receiver;
        *record_mut(state, numbers[0]) = sender;
    }
}

impl Engine for Spoiled {
    fn name(&self) -> &str {
        "spoiled"
    }

    fn sound(&self, state: &mut [u64], tables: &mut [u8]) -> u64 {
        let mut judged = state.to_vec();
        if let Some(state) = judged.first_chunk_mut() {
            self.judged(state);
        }
        Second.sound(&mut judged, tables)
    }

    fn found(&self, state: &mut [u64], tables: &mut [u8], settings: [u64; 3], id: u32) -> u64 {
        let answer = Second.found(state, tables, settings, id);
        (self.found)(state);
        answer
    }

    fn read(&self, state: &mut [u64], tables: &mut [u8], image: &[u8]) -> u64 {
        let before = (state.to_vec(), tables.to_vec());
        let answer = Second.read(state, tables, image);
        let answer = (self.read)(state, tables, answer);
        let mut after = AfterReading {
            before,
            state,
            tables,
            image,
            answer,
        };
        (self.restore)(&mut after);
        after.answer
    }

    fn begin(&self, state: &mut [u64], tables: &mut [u8], id: u32, gateway: u64) -> u64 {
        let answer = Second.begin(state, tables, id, gateway);
        (self.begin)(state, tables, answer)
    }

    fn withdraw(&self, state: &mut [u64], tables: &mut [u8], node: u64) -> u64 {
        let before = (state.to_vec(), tables.to_vec());
        let answer = Second.withdraw(state, tables, node);
        let mut after = AfterWithdrawal {
            before,
            state,
            tables,
            node,
            answer,
        };
        (self.withdraw)(&mut after);
        after.answer
    }

    fn deliver(&self, state: &mut [u64], tables: &mut [u8], sender: u64, receiver: u64) -> u64 {
        let before = (state.to_vec(), tables.to_vec());
        let answer = Second.deliver(state, tables, sender, receiver);
        let numbers = [sender, receiver].map(|number| number as usize);
        let state: Option<&mut State> = state.first_chunk_mut();
        let are_nodes = numbers.iter().all(|n| (1..=MOST_NODES).contains(n));
        let Some(state) = state.filter(|_| are_nodes) else {
            return answer;
        };
        self.spoil_records(state, numbers, answer);
        let [sender, receiver] = numbers;
        let mut after = AfterStep {
            before,
            state,
            tables,
            sender,
            receiver,
            answer,
        };
        if answer & 0xff == 0 {
            (self.join)(&mut after);
        }
        after.answer
    }

    fn lookup(&self, state: &mut [u64], tables: &mut [u8], from: u64, to: u64, failed: u64) -> u64 {
        let answer = Second.lookup(state, tables, from, to, failed);
        let mut after = AfterLookup {
            state,
            tables,
            from,
            to,
            failed,
            answer,
        };
        (self.lookup)(&mut after);
        after.answer
    }

    fn verdict(&self, state: &mut [u64], tables: &mut [u8]) -> u64 {
        (self.verdict)(Second.verdict(state, tables))
    }

    fn write(&self, state: &mut [u64], tables: &mut [u8], version: u64, out: &mut [u8]) -> u64 {
        let before = out.to_vec();
        let answer = Second.write(state, tables, version, out);
        (self.write)(out);
        let mut after = AfterWriting {
            state,
            tables,
            version,
            before,
            out,
            answer,
        };
        (self.save)(&mut after);
        after.answer
    }

    fn survey(
        &self,
        state: &mut [u64],
        tables: &mut [u8],
        failed: u64,
        counts: &mut Counts,
    ) -> u64 {
        let before = *counts;
        let answer = Second.survey(state, tables, failed, counts);
        let mut after = AfterSurvey {
            state,
            tables,
            failed,
            before,
            counts,
            answer,
        };
        (self.survey)(&mut after);
        after.answer
    }

    fn trace(&self, state: &mut [u64], tables: &mut [u8], trace: &[u8]) -> u64 {
        let answer = Second.trace(state, tables, trace);
        let mut after = AfterTrace {
            state,
            tables,
            trace,
            answer,
        };
        (self.trace)(&mut after);
        after.answer
    }

    fn fill(&self, state: &mut [u64], tables: &mut [u8], out: &mut [u8]) -> u64 {
        let before = (state.to_vec(), tables.to_vec(), out.to_vec());
        let answer = Second.fill(state, tables, out);
        let mut after = AfterFilling {
            before,
            state,
            tables,
            out,
            answer,
        };
        (self.fill)(&mut after);
        after.answer
    }
}
