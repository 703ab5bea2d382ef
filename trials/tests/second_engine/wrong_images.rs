//! Engines that read or write images of version 2 wrong: what they are made of, and the trials that must see them, also where two engines are wrong together.

use trials::engine::{Engine, Second};
use trials::random::{before_joins, joins, Joins};
use trials::resumed::{by_hand, damaged, in_order, longest, round_trips, stopped, unreached};
use trials::second::memory::{record, Record, State, COUNT, MOST_NODES};

use crate::seen::{is_seen, Sees};
use crate::spoiled::{AfterReading, AfterWriting, Spoiled};

pub const TRIALS: [Sees; 7] = [
    ("by hand", |a, b| by_hand(a, b).is_err()),
    ("in order", |a, b| in_order(a, b).is_err()),
    ("stopped", |a, b| stopped(a, b).is_err()),
    ("round trips", |a, b| round_trips(a, b).is_err()),
    ("damaged", |a, b| damaged(a, b).is_err()),
    ("unreached", |a, b| unreached(a, b).is_err()),
    ("longest", |a, b| longest(a, b).is_err()),
];

/// Seen by each of these trials.
pub fn image_is_seen(what: &str, wrong: Spoiled, by: &str) {
    is_seen(what, wrong, &TRIALS, by);
}

/// The places of a record's words.
pub const STATUS: usize = 1;
pub const LEVEL: usize = 2;
pub const ASKED: usize = 4;
pub const TOLD: usize = 5;
pub const REQUESTS: usize = 6;
pub const NOTICES: usize = 7;

impl AfterReading<'_> {
    pub fn is_version_2(&self) -> bool {
        self.image.get(1) == Some(&2)
    }

    /// Is it a taken image of version 2?
    pub fn restores(&self) -> bool {
        self.answer == 0 && self.is_version_2()
    }

    /// Changes every node's record that a taken image of version 2 restores.
    pub fn records(&mut self, change: fn(&mut Record)) {
        if self.restores() {
            let nodes = self.state[COUNT] as usize;
            let records = self.state[8..].as_chunks_mut().0;
            records.iter_mut().take(nodes).for_each(change);
        }
    }

    /// What stands before section four, and the sections from there on; none where there are none.
    pub fn parts(&self) -> Option<(&[u8], Joins)> {
        let (front, behind) = self.image.split_at_checked(before_joins(self.image)?)?;
        Some((front, joins(behind).filter(|_| self.is_version_2())?))
    }

    /// Where an image is refused 24, reads it with other sections; it stays refused where these are.
    pub fn instead(&mut self, change: impl Fn(&mut Joins, usize)) {
        let Some((front, mut joins)) = self.parts().filter(|_| self.answer == 24) else {
            return;
        };
        change(&mut joins, front[5].into());
        let other = [front, &joins.bytes()].concat();
        if Second.read(self.state, self.tables, &other) == 0 {
            self.answer = 0;
        }
    }

    /// Reads all before section four as version 1; answers whether it is right.
    pub fn read_front(&mut self) -> bool {
        let Some((front, _)) = self.parts() else {
            return false;
        };
        let mut front = front.to_vec();
        front[1] = 1;
        Second.read(self.state, self.tables, &front) == 0
    }

    /// Are the sections in order, with a status for each node that they name, and as many counts as there are nodes?
    pub fn in_order(&self) -> bool {
        let Some((front, joins)) = self.parts() else {
            return false;
        };
        let numbers: Vec<u8> = joins.unsettled.iter().map(|piece| piece[0]).collect();
        let rise = numbers.windows(2).all(|pair| pair[0] < pair[1]);
        let nodes = numbers.iter().all(|&node| (1..=front[5]).contains(&node));
        let statuses = joins.unsettled.iter().all(|piece| piece[1] != 0);
        rise && nodes && statuses && joins.panels.len() == usize::from(front[5])
    }

    /// Puts the sections over the records, as they are.
    pub fn put(&mut self) {
        let Some((_, joins)) = self.parts() else {
            return;
        };
        let set = |bytes: &[u8]| u64::from_le_bytes(bytes.try_into().expect("eight bytes"));
        for piece in joins.unsettled {
            let record = &mut self.state[8 * usize::from(piece[0])..][..8];
            (1..=3).for_each(|field| record[field] = piece[field].into());
            (record[ASKED], record[TOLD]) = (set(&piece[4..12]), set(&piece[12..]));
        }
        for (node, panel) in (1..).zip(joins.panels) {
            let record: &mut [u64] = &mut self.state[8 * node..][..8];
            (record[REQUESTS], record[NOTICES]) = (panel[0].into(), panel[1].into());
        }
    }
}

impl AfterWriting<'_> {
    /// Is it a taken writing of version 2?
    pub fn saves(&self) -> bool {
        self.answer & 0xff == 0 && self.version == 2
    }

    /// Is a node of a state that is judged not in system?
    pub fn is_joining(&self) -> bool {
        let state: &State = self.state.first_chunk().expect("it is judged");
        let mut nodes = 1..=(state[COUNT] as usize).min(MOST_NODES);
        nodes.any(|node| record(state, node)[STATUS] != 0)
    }

    /// Writes other sections of version 2.
    pub fn sections(&mut self, change: impl Fn(&mut Joins)) {
        if self.saves() {
            let length = (self.answer >> 8) as usize;
            let image = &self.out[..length];
            let (front, behind) = image.split_at(before_joins(image).expect("an image"));
            let mut joins = joins(behind).expect("it has its counts");
            change(&mut joins);
            let image = [front, &joins.bytes()].concat();
            self.write(&image);
        }
    }

    /// Writes these bytes, as far as there is room, in place of what was written.
    pub fn write(&mut self, image: &[u8]) {
        self.out.copy_from_slice(&self.before);
        let room = image.len().min(self.out.len());
        self.out[..room].copy_from_slice(&image[..room]);
        self.answer = (image.len() as u64) << 8;
    }

    /// Refuses it, and changes nothing.
    pub fn refuse(&mut self, refusal: u64) {
        self.out.copy_from_slice(&self.before);
        self.answer = refusal;
    }

    /// What would be written of another version with room enough.
    pub fn other(&mut self, version: u64) -> Vec<u8> {
        let mut out = vec![0; 65_536];
        let answer = Second.write(self.state, self.tables, version, &mut out);
        out.truncate((answer >> 8) as usize);
        out
    }

    /// Writes another version.
    pub fn write_other(&mut self, version: u64) {
        let image = self.other(version);
        self.write(&image);
    }
}
