//! Settings of a network and what they say about ids: digits, validity, common suffix, qualification.

/// Base b, digits d, depth K; only values in range can be made.
#[derive(Clone, Copy, Debug, PartialEq, Eq)]
pub struct Settings {
    base: u8,
    digits: u8,
    depth: u8,
}

/// Digit `level` of an id, 0 being the rightmost.
pub fn digit(id: u32, level: usize) -> usize {
    (id >> (4 * level)) as usize & 15
}

impl Settings {
    pub fn new(base: u64, digits: u64, depth: u64) -> Option<Settings> {
        let in_range =
            (2..=16).contains(&base) && (1..=8).contains(&digits) && (1..=4).contains(&depth);
        in_range.then_some(Settings {
            base: base as u8,
            digits: digits as u8,
            depth: depth as u8,
        })
    }

    pub fn base(&self) -> usize {
        self.base.into()
    }

    pub fn digits(&self) -> usize {
        self.digits.into()
    }

    pub fn depth(&self) -> usize {
        self.depth.into()
    }

    /// An id that these settings allow.
    pub fn valid(&self, id: u32) -> bool {
        let (low, high) = (0..self.digits(), self.digits()..8);
        low.into_iter().all(|level| digit(id, level) < self.base())
            && high.into_iter().all(|level| digit(id, level) == 0)
    }

    /// The common suffix, the paper's match: how many of the low digits agree before one differs.
    pub fn common_suffix(&self, one: u32, other: u32) -> usize {
        (0..self.digits())
            .take_while(|&level| digit(one, level) == digit(other, level))
            .count()
    }

    /// May `id` stand in entry (level, wanted) of `owner`? The digits below the level agree if no bit of theirs differs.
    pub fn qualified(&self, id: u32, owner: u32, level: usize, wanted: usize) -> bool {
        (id ^ owner).trailing_zeros() as usize >= 4 * level && digit(id, level) == wanted
    }
}
