//! Engines that fill wrong: what they are made of, and the trials that must see them, also where two engines are wrong together.

use trials::engine::{Engine, Second};
use trials::fills::{
    among_joins, by_hand, every_entry, every_table, hops, in_order, joined, lengths, most,
};
use trials::fills::{restored, sample};
use trials::second::digit;
use trials::second::memory::{record, State, COUNT};
use trials::second::network::Network;

use crate::seen::{is_seen, Sees};
use crate::spoiled::{AfterFilling, SpoilFilling, Spoiled, UNSPOILED};

const TRIALS: [Sees; 11] = [
    ("by hand", |a, b| by_hand(a, b).is_err()),
    ("in order", |a, b| in_order(a, b).is_err()),
    ("lengths", |a, b| lengths(a, b).is_err()),
    ("every entry", |a, b| every_entry(a, b).is_err()),
    ("every table", |a, b| every_table(a, b).is_err()),
    ("hops", |a, b| hops(a, b).is_err()),
    ("among joins", |a, b| among_joins(a, b).is_err()),
    ("joined", |a, b| joined(a, b).is_err()),
    ("restored", |a, b| restored(a, b).is_err()),
    ("sample", |a, b| sample(a, b).is_err()),
    ("most", |a, b| most(a, b).is_err()),
];
pub const ALL: &str =
    "by hand, in order, lengths, every entry, every table, hops, among joins, joined, restored, sample, most";
/// E1 has entries of one, and lacks one node of one.
pub const ALL_BUT_IN_ORDER: &str =
    "by hand, lengths, every entry, every table, hops, among joins, joined, restored, most";

/// What goes wrong, and by which of the trials it must be seen.
pub type Wrong = (&'static str, SpoilFilling, &'static str);

pub fn are_seen(wrong: &[Wrong]) {
    for &(what, fill, by) in wrong {
        let wrong = Spoiled { fill, ..UNSPOILED };
        is_seen(what, wrong, &TRIALS, by);
    }
}

/// An entry: node, level and digit.
pub type Place = [u8; 3];

impl AfterFilling<'_> {
    pub fn taken(&self) -> bool {
        self.answer & 0xff == 0
    }

    pub fn used_state(&self) -> &State {
        self.state.first_chunk().expect("it is judged")
    }

    /// What a taken filling lists.
    pub fn list(&self) -> Vec<[u8; 4]> {
        let length = 4 * (self.answer >> 8) as usize;
        self.out[..length].as_chunks().0.to_vec()
    }

    /// The list entry by entry.
    pub fn entries(&self) -> Vec<Vec<[u8; 4]>> {
        let list = self.list();
        let entries = list.chunk_by(|one, next| one[..3] == next[..3]);
        entries.map(<[_]>::to_vec).collect()
    }

    /// Who stands in an entry before.
    pub fn held(&self, [node, level, digit]: Place) -> Vec<u8> {
        let [node, level, digit] = [node, level, digit].map(usize::from);
        let slots = &self.before.1[512 * (node - 1) + 64 * level + 4 * digit..][..4];
        slots.iter().copied().filter(|&slot| slot != 0).collect()
    }

    /// Who qualifies for an entry, rising.
    pub fn qualified(&self, [owner, level, digit]: Place) -> Vec<u8> {
        let network = Network::decode(self.used_state());
        let own = network.node(owner.into()).id;
        let [level, digit] = [level, digit].map(usize::from);
        let may = |id| network.settings.qualified(id, own, level, digit);
        let nodes = network.iter().filter(|(_, node)| may(node.id));
        nodes.map(|(number, _)| number as u8).collect()
    }

    /// Those of them that are absent before.
    pub fn absent(&self, place: Place) -> Vec<u8> {
        let held = self.held(place);
        let mut absent = self.qualified(place);
        absent.retain(|node| !held.contains(node));
        absent
    }

    pub fn is_own(&self, [owner, level, wanted]: Place) -> bool {
        let id = record(self.used_state(), owner.into())[0] as u32;
        digit(id, level.into()) == wanted.into()
    }

    pub fn undo_tables(&mut self) {
        self.tables.copy_from_slice(&self.before.1);
    }

    pub fn undo_list(&mut self) {
        self.out.copy_from_slice(&self.before.2);
    }

    /// Nothing has changed, and this is the answer.
    pub fn refuse(&mut self, refusal: u64) {
        self.undo_tables();
        self.undo_list();
        self.answer = refusal;
    }

    /// Writes these bytes, as far as there is room, in place of what was written.
    pub fn write(&mut self, bytes: &[u8]) {
        self.undo_list();
        let room = bytes.len().min(self.out.len());
        self.out[..room].copy_from_slice(&bytes[..room]);
    }

    /// Adds these instead, as far as there are slots, and lists them.
    pub fn add(&mut self, list: &[[u8; 4]]) {
        self.undo_tables();
        for &[node, level, digit, near] in list {
            let [node, level, digit] = [node, level, digit].map(usize::from);
            let slots = &mut self.tables[512 * (node - 1) + 64 * level + 4 * digit..][..4];
            let free = slots.iter_mut().find(|slot| **slot == 0);
            free.into_iter().for_each(|slot| *slot = near);
        }
        self.write(list.as_flattened());
        self.answer = (list.len() as u64) << 8;
    }

    /// Another list in place of each entry's.
    pub fn instead(&mut self, change: fn(&AfterFilling, Place, Vec<[u8; 4]>) -> Vec<[u8; 4]>) {
        if self.taken() {
            let change = |entry: Vec<[u8; 4]>| {
                let [node, level, digit, _] = entry[0];
                change(self, [node, level, digit], entry)
            };
            let list: Vec<_> = self.entries().into_iter().flat_map(change).collect();
            self.add(&list);
        }
    }

    /// Lists the same in another order.
    pub fn sort_list<K: Ord>(&mut self, key: fn(&[u8; 4]) -> K) {
        if self.taken() {
            let mut list = self.list();
            list.sort_by_key(key);
            self.write(list.as_flattened());
        }
    }

    /// What would be added with memory enough, whoever joins.
    pub fn without_refusal(&self) -> Vec<[u8; 4]> {
        let (mut state, mut tables) = (self.before.0.clone(), self.before.1.clone());
        for node in 1..=state[COUNT] as usize {
            state[8 * node + 1..8 * node + 8].fill(0);
        }
        let mut out = vec![0; 21_504];
        let answer = Second.fill(&mut state, &mut tables, &mut out);
        out[..4 * (answer >> 8) as usize].as_chunks().0.to_vec()
    }
}

pub fn record_of([node, level, digit]: Place, near: u8) -> [u8; 4] {
    [node, level, digit, near]
}
