//! Document 01's paragraph on soundness, and document 02's bounds of the counts, clause by clause, slow and literal; in `records` the sentences about an
//! image's records.

mod records;

pub use records::plain_records;

use crate::panel::Bounds;
use crate::second::memory::{State, Tables};

/// One state as the clauses see it.
struct Plain<'a> {
    state: &'a State,
    tables: &'a Tables,
}

pub fn plain_sound(state: &State, tables: &Tables) -> bool {
    let plain = Plain { state, tables };
    plain.settings_in_range()
        && plain.nodes_have_valid_different_ids()
        && plain
            .nodes()
            .all(|x| plain.record_obeys(x) && plain.counts_obey(x) && plain.table_obeys(x))
        && plain.unused_places_are_zero()
}

impl Plain<'_> {
    fn base(&self) -> u64 {
        self.state[0]
    }

    fn digits(&self) -> u64 {
        self.state[1]
    }

    fn count(&self) -> u64 {
        self.state[3]
    }

    fn nodes(&self) -> std::ops::RangeInclusive<u64> {
        1..=self.count()
    }

    fn field(&self, x: u64, field: usize) -> u64 {
        self.state[8 * x as usize + field]
    }

    fn digit(&self, x: u64, level: u64) -> u64 {
        self.field(x, 0) >> (4 * level) & 15
    }

    fn common(&self, x: u64, y: u64) -> u64 {
        let differs = |&level: &u64| self.digit(x, level) != self.digit(y, level);
        (0..self.digits()).find(differs).unwrap_or(self.digits())
    }

    fn slots(&self, x: u64, level: u64, digit: u64) -> [u64; 4] {
        let place = 512 * (x - 1) + 64 * level + 4 * digit;
        [0, 1, 2, 3].map(|slot| self.tables[(place + slot) as usize].into())
    }

    fn settings_in_range(&self) -> bool {
        matches!(self.state[..3], [2..=16, 1..=8, 1..=4])
    }

    fn nodes_have_valid_different_ids(&self) -> bool {
        let valid = |x| {
            let id = self.field(x, 0);
            let below = |level: u64| (id >> (4 * level) & 15) < self.base();
            (0..self.digits()).all(below) && id >> (4 * self.digits()) == 0
        };
        let differs = |x: u64| (1..x).all(|y| self.field(y, 0) != self.field(x, 0));
        matches!(self.count(), 1..=64) && self.nodes().all(|x| valid(x) && differs(x))
    }

    fn unused_places_are_zero(&self) -> bool {
        let used_word = |place: usize| match place {
            0..=3 => true,
            4..=7 => false,
            _ => place / 8 <= self.count() as usize,
        };
        let used_byte = |place: usize| {
            let (x, level, digit) = (place / 512, place % 512 / 64, place % 64 / 4);
            let (base, digits) = (self.base() as usize, self.digits() as usize);
            x < self.count() as usize && level < digits && digit < base
        };
        (0..520).all(|place| self.state[place] == 0 || used_word(place))
            && (0..32_768).all(|place| self.tables[place] == 0 || used_byte(place))
    }

    fn table_obeys(&self, x: u64) -> bool {
        (0..self.digits()).all(|level| {
            self.slots(x, level, self.digit(x, level))[0] == x
                && (0..self.base()).all(|digit| self.entry_obeys(x, level, digit))
        })
    }

    fn entry_obeys(&self, x: u64, level: u64, digit: u64) -> bool {
        let slots = self.slots(x, level, digit);
        (0..4).all(|slot| {
            let y = slots[slot];
            let no_gap = slots[..slot].iter().all(|&before| before != 0);
            let different = !slots[..slot].contains(&y);
            let in_depth = (slot as u64) < self.state[2];
            y == 0
                || (no_gap
                    && different
                    && in_depth
                    && self.nodes().contains(&y)
                    && self.common(x, y) >= level
                    && self.digit(y, level) == digit
                    && (y == x || self.attached(y)))
        })
    }

    fn in_system(&self, x: u64) -> bool {
        self.nodes().contains(&x) && self.field(x, 1) == 0
    }

    fn attached(&self, x: u64) -> bool {
        self.nodes().contains(&x) && matches!(self.field(x, 1), 0 | 3)
    }

    fn record_obeys(&self, x: u64) -> bool {
        let target = self.field(x, 3);
        let rest_zero = [2, 4, 5].iter().all(|&field| self.field(x, field) == 0);
        match self.field(x, 1) {
            0 => target == 0 && rest_zero,
            1 => self.in_system(target) && rest_zero,
            2 => self.attached(target) && rest_zero,
            3 => target == 0 && self.notifying_obeys(x),
            _ => false,
        }
    }

    fn counts_obey(&self, x: u64) -> bool {
        Bounds::kept(self.state, x as usize)
    }

    fn notifying_obeys(&self, x: u64) -> bool {
        let level = self.field(x, 2);
        let has = |set: usize, y: u64| self.field(x, set) >> (y - 1) & 1 == 1;
        let pending_obeys =
            |y: u64| self.attached(y) && self.common(x, y) >= level && y != x && !has(5, y);
        level < self.digits()
            && self.field(x, 4) != 0
            && (1..=64).all(|y| !has(4, y) || pending_obeys(y))
            && (1..=64).all(|y| !has(5, y) || (self.attached(y) && y != x))
    }
}
