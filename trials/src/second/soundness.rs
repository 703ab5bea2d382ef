//! The judge of a state: every clause of document 01's paragraph, and of document 02's on the counts, straight on the memory.

use super::memory::{self, EntryBytes, Record, State, Tables, BASE, COUNT, DEPTH, DIGITS};
use super::memory::{MOST_NODES, TABLE_BYTES};
use super::node_set::NodeSet;
use super::refusal::Refusal;
use super::settings::{digit, Settings};

/// A node tells at most the 63 others, and the first of them by attaching.
const MOST_NOTICES: u64 = MOST_NODES as u64 - 2;

/// What the clauses about one node need to know of all of them.
struct Judge {
    settings: Settings,
    count: usize,
    /// Node n's id stands at n.
    ids: [u32; MOST_NODES + 1],
    in_system: NodeSet,
    /// In the system or notifying: those that others may store, ask and tell.
    attached: NodeSet,
}

/// Sentences 1 and 2: long enough and sound, or the refusal.
pub fn lent_and_sound<'a>(
    state: &'a [u64],
    tables: &'a [u8],
) -> Result<(&'a State, &'a Tables), Refusal> {
    let (state, tables) = memory::lent(state, tables).ok_or(Refusal::ShortMemory)?;
    Refusal::Unsound.when(!sound(state, tables))?;
    Ok((state, tables))
}

/// Is this memory a sound state?
pub fn sound(state: &State, tables: &Tables) -> bool {
    let Some(judge) = Judge::new(state) else {
        return false;
    };
    judge.ids_differ()
        && judge.unused_nodes_are_zero(state, tables)
        && judge.numbers().all(|number| {
            judge.record_is_sound(number, memory::record(state, number))
                && judge.table_is_sound(number, memory::table_bytes(tables, number))
        })
}

fn all_zero(bytes: &[u8]) -> bool {
    bytes
        .chunks(256)
        .all(|chunk| chunk.iter().fold(0, |seen, byte| seen | byte) == 0)
}

impl Judge {
    /// Settings and count in range, ids valid; nothing else is judged yet.
    fn new(state: &State) -> Option<Judge> {
        let settings = Settings::new(state[BASE], state[DIGITS], state[DEPTH])?;
        let count = usize::try_from(state[COUNT])
            .ok()
            .filter(|count| (1..=MOST_NODES).contains(count))?;
        let mut judge = Judge {
            settings,
            count,
            ids: [0; MOST_NODES + 1],
            in_system: NodeSet::default(),
            attached: NodeSet::default(),
        };
        for number in 1..=count {
            let record = memory::record(state, number);
            let id = u32::try_from(record[0]).ok();
            judge.ids[number] = id.filter(|&id| settings.valid(id))?;
            match record[1] {
                0 => {
                    judge.in_system.insert(number);
                    judge.attached.insert(number);
                }
                3 => judge.attached.insert(number),
                _ => {}
            }
        }
        Some(judge)
    }

    fn numbers(&self) -> std::ops::RangeInclusive<usize> {
        1..=self.count
    }

    fn ids_differ(&self) -> bool {
        let ids = &self.ids[1..=self.count];
        ids.iter()
            .enumerate()
            .all(|(place, id)| !ids[..place].contains(id))
    }

    /// The head's unused words, and records and tables that no node has.
    fn unused_nodes_are_zero(&self, state: &State, tables: &Tables) -> bool {
        state[COUNT + 1..8].iter().all(|&word| word == 0)
            && state[8 * (self.count + 1)..].iter().all(|&word| word == 0)
            && all_zero(&tables[512 * self.count..TABLE_BYTES])
    }

    fn record_is_sound(&self, number: usize, record: &Record) -> bool {
        let [_, status, attach_level, target, pending, notified, requests, notices] = *record;
        let no_notifying = attach_level == 0 && pending == 0 && notified == 0;
        let joining = |targets: NodeSet, more: u64| {
            self.has(targets, target)
                && no_notifying
                && requests <= self.common_suffix(number, target as usize) + more
                && notices == 0
        };
        let after_attaching = target == 0 && requests <= self.settings.digits() as u64 + 1;
        match status {
            0 => after_attaching && no_notifying && notices <= MOST_NOTICES,
            1 => joining(self.in_system, 1),
            2 => joining(self.attached, 2),
            3 => {
                let (pending, notified) = (NodeSet(pending), NodeSet(notified));
                after_attaching
                    && self.notifying_is_sound(number, attach_level, (pending, notified))
                    && notices.checked_add(1) == Some(notified.len() as u64)
            }
            _ => false,
        }
    }

    fn common_suffix(&self, one: usize, other: usize) -> u64 {
        let (one, other) = (self.ids[one], self.ids[other]);
        self.settings.common_suffix(one, other) as u64
    }

    /// Is the word the number of a node in the set?
    fn has(&self, set: NodeSet, word: u64) -> bool {
        word != 0 && word <= self.count as u64 && set.contains(word as usize)
    }

    fn notifying_is_sound(
        &self,
        number: usize,
        attach_level: u64,
        (pending, notified): (NodeSet, NodeSet),
    ) -> bool {
        let mut others = self.attached;
        others.remove(number);
        attach_level < self.settings.digits() as u64
            && !pending.is_empty()
            && pending.is_subset(others)
            && pending.is_disjoint(notified)
            && notified.is_subset(others)
            && pending
                .iter()
                .all(|node| self.common_suffix(number, node) >= attach_level)
    }

    fn table_is_sound(&self, number: usize, table: &memory::TableBytes) -> bool {
        let (levels, unused) = table.split_at(64 * self.settings.digits());
        all_zero(unused)
            && levels
                .chunks_exact(64)
                .enumerate()
                .all(|(level, row)| self.level_is_sound(number, level, row))
    }

    fn level_is_sound(&self, number: usize, level: usize, row: &[u8]) -> bool {
        let (entries, unused) = row.split_at(4 * self.settings.base());
        let own = digit(self.ids[number], level);
        all_zero(unused)
            && usize::from(entries[4 * own]) == number
            && entries.chunks_exact(4).enumerate().all(|(digit, slots)| {
                let slots = slots.try_into().expect("chunks of four");
                self.entry_is_sound(number, level, digit, slots)
            })
    }

    /// A list without gaps of at most K different qualified nodes, none of them still joining but the owner.
    fn entry_is_sound(&self, owner: usize, level: usize, digit: usize, slots: &EntryBytes) -> bool {
        if *slots == [0; 4] {
            return true;
        }
        // The list ends with the last slot that is not zero; a zero before it is a gap.
        let after_list = u32::from_le_bytes(*slots).leading_zeros() / 8;
        let len = 4 - after_list as usize;
        let mut may_come = self.attached;
        may_come.insert(owner);
        for &slot in &slots[..len] {
            let node = usize::from(slot);
            if node == 0
                || node > self.count
                || !may_come.contains(node)
                || !self
                    .settings
                    .qualified(self.ids[node], self.ids[owner], level, digit)
            {
                return false;
            }
            may_come.remove(node);
        }
        len <= self.settings.depth()
    }
}
