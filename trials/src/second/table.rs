//! A node's neighbor table: for each level and digit an entry, an ordered list of at most four nodes.

use super::memory::{self, EntryBytes, TableBytes};
use super::settings::{digit, Settings};

/// Node numbers in slot order.
#[derive(Clone, Copy, Debug, Default, PartialEq, Eq)]
pub struct Entry {
    slots: EntryBytes,
    len: u8,
}

/// The entries that the settings give, level by level.
#[derive(Clone, Debug, PartialEq, Eq)]
pub struct Table {
    settings: Settings,
    entries: Vec<Entry>,
}

impl Entry {
    pub fn decode(slots: &EntryBytes) -> Entry {
        Entry {
            slots: *slots,
            len: slots.iter().take_while(|&&slot| slot != 0).count() as u8,
        }
    }

    pub fn len(&self) -> usize {
        self.len.into()
    }

    pub fn is_empty(&self) -> bool {
        self.len == 0
    }

    pub fn first(&self) -> Option<usize> {
        self.iter().next()
    }

    pub fn contains(&self, number: usize) -> bool {
        self.iter().any(|node| node == number)
    }

    pub fn iter(&self) -> impl Iterator<Item = usize> + '_ {
        self.slots[..self.len()].iter().map(|&slot| slot.into())
    }

    fn push(&mut self, number: usize) {
        self.slots[self.len()] = number as u8;
        self.len += 1;
    }
}

impl Table {
    pub fn empty(settings: Settings) -> Table {
        let entries = vec![Entry::default(); settings.digits() * settings.base()];
        Table { settings, entries }
    }

    /// The table of a node that knows only itself.
    pub fn own_entries(settings: Settings, number: usize, id: u32) -> Table {
        let mut table = Table::empty(settings);
        for level in 0..settings.digits() {
            table.append(level, digit(id, level), number);
        }
        table
    }

    pub fn decode(settings: Settings, bytes: &TableBytes) -> Table {
        let places = (0..settings.digits())
            .flat_map(|level| (0..settings.base()).map(move |digit| (level, digit)));
        let entry = |(level, digit)| Entry::decode(memory::entry_bytes(bytes, level, digit));
        let entries = places.map(entry).collect();
        Table { settings, entries }
    }

    /// Decides every byte of the node's table.
    pub fn encode(&self, bytes: &mut TableBytes) {
        bytes.fill(0);
        for (level, digit, entry) in self.iter() {
            *memory::entry_bytes_mut(bytes, level, digit) = entry.slots;
        }
    }

    pub fn entry(&self, level: usize, digit: usize) -> &Entry {
        &self.entries[level * self.settings.base() + digit]
    }

    /// Entries as (level, digit, entry), rising.
    pub fn iter(&self) -> impl Iterator<Item = (usize, usize, &Entry)> {
        let levels = self.entries.chunks_exact(self.settings.base()).enumerate();
        levels.flat_map(|(level, entries)| {
            let entries = entries.iter().enumerate();
            entries.map(move |(digit, entry)| (level, digit, entry))
        })
    }

    /// Every node that stands in the table, by level, digit and slot, once for each place.
    pub fn nodes(&self) -> impl Iterator<Item = usize> + '_ {
        self.entries.iter().flat_map(Entry::iter)
    }

    /// Appends where the node is absent and fewer than K stand; says whether it did.
    pub fn append(&mut self, level: usize, digit: usize, number: usize) -> bool {
        let entry = &mut self.entries[level * self.settings.base() + digit];
        let room = entry.len() < self.settings.depth() && !entry.contains(number);
        if room {
            entry.push(number);
        }
        room
    }
}
