//! An image in two parts, to be changed record by record.

use super::Judged;
use crate::random::{parts, with_records};

/// The bytes of a record.
pub const NODE: usize = 0;
pub const LEVEL: usize = 1;
pub const DIGIT: usize = 2;
pub const NEIGHBOR: usize = 3;

/// Places are counted from 1, and each change counts in what the one before left.
#[derive(Clone)]
pub struct Edited {
    pub head: Vec<u8>,
    pub records: Vec<[u8; 4]>,
}

impl Edited {
    pub fn new(image: &[u8]) -> Edited {
        let (head, records) = parts(image).expect("an image with its counts");
        Edited { head, records }
    }

    pub fn with(mut self, place: usize, byte: usize, value: u8) -> Edited {
        self.records[place - 1][byte] = value;
        self
    }

    /// Another record at the place.
    pub fn put(mut self, place: usize, record: [u8; 4]) -> Edited {
        self.records[place - 1] = record;
        self
    }

    pub fn without(mut self, place: usize) -> Edited {
        self.records.remove(place - 1);
        self
    }

    /// The record behind itself once more.
    pub fn again(mut self, place: usize) -> Edited {
        self.records.insert(place, self.records[place - 1]);
        self
    }

    pub fn exchanged(mut self, one: usize, other: usize) -> Edited {
        self.records.swap(one - 1, other - 1);
        self
    }

    /// So many records from the start moved to the end.
    pub fn turned(mut self, records: usize) -> Edited {
        self.records.rotate_left(records);
        self
    }

    pub fn reversed(mut self) -> Edited {
        self.records.reverse();
        self
    }

    pub fn without_records(mut self) -> Edited {
        self.records.clear();
        self
    }

    pub fn image(&self) -> Vec<u8> {
        with_records(&self.head, &self.records)
    }

    /// With what reading it must answer.
    pub fn judged(&self, name: impl Into<String>, refusal: u8, place: usize) -> Judged {
        Judged {
            name: name.into(),
            image: self.image(),
            refusal,
            place: place as u64,
        }
    }
}
