//! What version 2 adds to an image: a section of the nodes that are not in system, and a section of every node's two counts.

use super::memory::{self, Record, State, COUNT};
use super::refusal::Refusal;

/// Number, status, attach level and target in a byte each, then the pending and the notified set.
pub const UNSETTLED_BYTES: usize = 4 + 2 * 8;
/// Requests and notices in a byte each.
pub const PANEL_BYTES: usize = 2;

/// Both sections as they stand in an image.
pub struct Joins {
    unsettled: Vec<Unsettled>,
    /// Node n's at n−1.
    panels: Vec<[u8; PANEL_BYTES]>,
}

/// One node that is not in system.
struct Unsettled {
    number: usize,
    status: u64,
    attach_level: u64,
    target: u64,
    pending: u64,
    notified: u64,
}

impl Joins {
    /// What an image has behind its records, if both counts are there and give exactly the length.
    pub fn parse(rest: &[u8]) -> Option<Joins> {
        let (&count, rest) = rest.split_first()?;
        let (unsettled, rest) = rest.split_at_checked(UNSETTLED_BYTES * usize::from(count))?;
        let (&count, panels) = rest.split_first()?;
        if panels.len() != PANEL_BYTES * usize::from(count) {
            return None;
        }
        let (unsettled, _) = unsettled.as_chunks();
        let (panels, _) = panels.as_chunks();
        Some(Joins {
            unsettled: unsettled.iter().map(Unsettled::new).collect(),
            panels: panels.to_vec(),
        })
    }

    /// Puts both over the records of a network in which all are in system and have sent nothing. Sentence 24, as far as it speaks of the
    /// sections themselves.
    pub fn put(&self, state: &mut State) -> Result<(), Refusal> {
        let count = state[COUNT] as usize;
        let mut before = 0;
        for unsettled in &self.unsettled {
            let rises = before < unsettled.number && unsettled.number <= count;
            Refusal::UnsoundImage.when(!rises || unsettled.status == 0)?;
            unsettled.put(memory::record_mut(state, unsettled.number));
            before = unsettled.number;
        }
        Refusal::UnsoundImage.when(self.panels.len() != count)?;
        for (number, panel) in (1..).zip(&self.panels) {
            let [.., requests, notices] = memory::record_mut(state, number);
            [*requests, *notices] = panel.map(u64::from);
        }
        Ok(())
    }
}

impl Unsettled {
    fn new(bytes: &[u8; UNSETTLED_BYTES]) -> Unsettled {
        let [number, status, attach_level, target, sets @ ..] = *bytes;
        let (sets, _) = sets.as_chunks();
        Unsettled {
            number: number.into(),
            status: status.into(),
            attach_level: attach_level.into(),
            target: target.into(),
            pending: u64::from_le_bytes(sets[0]),
            notified: u64::from_le_bytes(sets[1]),
        }
    }

    /// All of a record but its id and its counts.
    fn put(&self, record: &mut Record) {
        let [_, status, attach_level, target, pending, notified, ..] = record;
        *status = self.status;
        *attach_level = self.attach_level;
        *target = self.target;
        *pending = self.pending;
        *notified = self.notified;
    }
}

/// Both sections of a sound state.
pub fn sections_of(state: &State) -> Vec<u8> {
    let numbers = 1..=state[COUNT] as u8;
    let records: Vec<&Record> = numbers
        .clone()
        .map(|number| memory::record(state, number.into()))
        .collect();
    let unsettled: Vec<[u8; UNSETTLED_BYTES]> = numbers
        .zip(&records)
        .filter(|(_, record)| record[1] != 0)
        .map(|(number, record)| unsettled_bytes(number, record))
        .collect();
    let panel = |record: &&Record| {
        let [.., requests, notices] = **record;
        [requests as u8, notices as u8]
    };
    let panels: Vec<[u8; PANEL_BYTES]> = records.iter().map(panel).collect();
    let counts = [unsettled.len() as u8, panels.len() as u8];
    [
        &counts[..1],
        unsettled.as_flattened(),
        &counts[1..],
        panels.as_flattened(),
    ]
    .concat()
}

/// In a sound state each of these words fits its bytes.
fn unsettled_bytes(number: u8, record: &Record) -> [u8; UNSETTLED_BYTES] {
    let [_, status, attach_level, target, pending, notified, ..] = *record;
    let mut bytes = [0; UNSETTLED_BYTES];
    bytes[..4].copy_from_slice(&[number, status as u8, attach_level as u8, target as u8]);
    bytes[4..12].copy_from_slice(&pending.to_le_bytes());
    bytes[12..].copy_from_slice(&notified.to_le_bytes());
    bytes
}
