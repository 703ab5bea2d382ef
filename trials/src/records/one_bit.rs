//! A neighbor whose id differs from the owner's in one bit: it may stand at the levels up to the digit that the bit is of.

use super::Judged;
use crate::by_hand::image;
use crate::second::digit;

/// Node 2's id is node 1's with this bit turned. It stands in node 1's entry at this level for the digit that it has there.
#[derive(Clone, Copy, Debug)]
pub struct OneBit {
    owner: u32,
    bit: usize,
    level: usize,
}

pub fn one_bit() -> Vec<OneBit> {
    let mut all = vec![];
    for owner in [0, 0x89ab_cdef, u32::MAX] {
        for bit in 0..32 {
            all.extend((0..8).map(|level| OneBit { owner, bit, level }));
        }
    }
    all
}

impl OneBit {
    pub fn allowed(&self) -> bool {
        self.level <= self.bit / 4
    }

    fn neighbor(&self) -> u32 {
        self.owner ^ 1 << self.bit
    }

    /// Both know only themselves, or node 1 knows node 2 too.
    pub fn image(&self, known: bool) -> Vec<u8> {
        let entry = digit(self.neighbor(), self.level) as u8;
        let record = [1, self.level as u8, entry, 2];
        let more: &[_] = if known { &[record] } else { &[] };
        image([16, 8, 2], &[self.owner, self.neighbor()], more)
    }

    /// A record that is refused stands in an own entry: after its owner, and after the own entries of the levels below.
    pub fn judged(&self) -> Judged {
        let (refusal, place) = match self.allowed() {
            true => (0, 0),
            false => (17, self.level as u64 + 2),
        };
        Judged {
            name: format!("{self:x?}"),
            image: self.image(true),
            refusal,
            place,
        }
    }

    /// The place of node 2 in the tables; in an own entry it comes after its owner.
    pub fn slot(&self) -> usize {
        let entry = digit(self.neighbor(), self.level);
        let own = entry == digit(self.owner, self.level);
        64 * self.level + 4 * entry + usize::from(own)
    }
}
