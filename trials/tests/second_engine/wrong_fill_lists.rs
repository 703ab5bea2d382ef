//! Fillings that put what they add elsewhere, list it otherwise or answer another number.

use trials::second::memory::COUNT;

use crate::wrong_fills::{are_seen, Wrong, ALL, ALL_BUT_IN_ORDER};

const WRONG: [Wrong; 14] = [
    (
        "in front of an entry, but behind its owner",
        |after| {
            let entries = if after.taken() {
                after.entries()
            } else {
                vec![]
            };
            for entry in entries {
                let [node, level, digit, _] = entry[0];
                let place = [node, level, digit];
                let held = after.held(place);
                let (first, rest) = held.split_at(usize::from(after.is_own(place)));
                let added: Vec<u8> = entry.iter().map(|record| record[3]).collect();
                let slots = [first, &added, rest].concat();
                let [node, level, digit] = place.map(usize::from);
                let start = 512 * (node - 1) + 64 * level + 4 * digit;
                after.tables[start..][..slots.len()].copy_from_slice(&slots);
            }
        },
        "by hand, lengths, every entry, hops, among joins, joined, restored",
    ),
    (
        "the list by level",
        |after| after.sort_list(|&[node, level, digit, _]| (level, node, digit)),
        ALL_BUT_IN_ORDER,
    ),
    (
        "the list by digit",
        |after| after.sort_list(|&[node, level, digit, _]| (node, digit, level)),
        ALL_BUT_IN_ORDER,
    ),
    (
        "the list by neighbor",
        |after| after.sort_list(|record| record[3]),
        ALL_BUT_IN_ORDER,
    ),
    (
        "records begin with the neighbor",
        |after| {
            if after.taken() {
                let mut list = after.list();
                list.iter_mut().for_each(|record| record.rotate_right(1));
                after.write(list.as_flattened());
            }
        },
        ALL,
    ),
    (
        "a count byte stands before the list",
        |after| {
            if after.taken() {
                let list = after.list();
                after.write(&[&[list.len() as u8], list.as_flattened()].concat());
            }
        },
        ALL,
    ),
    (
        "a count of two bytes stands before the list",
        |after| {
            if after.taken() {
                let list = after.list();
                let count = (list.len() as u16).to_le_bytes();
                after.write(&[&count, list.as_flattened()].concat());
            }
        },
        ALL,
    ),
    (
        "bytes past the list are zeroed",
        |after| {
            if after.taken() {
                let length = 4 * (after.answer >> 8) as usize;
                after.out[length..].fill(0);
            }
        },
        ALL,
    ),
    (
        "it is listed and not added",
        |after| after.undo_tables(),
        ALL,
    ),
    ("it is added and not listed", |after| after.undo_list(), ALL),
    (
        "the answer counts bytes",
        |after| {
            if after.taken() {
                after.answer *= 4;
            }
        },
        ALL,
    ),
    (
        "the answer counts entries",
        |after| {
            if after.taken() {
                after.answer = (after.entries().len() as u64) << 8;
            }
        },
        ALL_BUT_IN_ORDER,
    ),
    (
        "the answer has 8 bits",
        |after| after.answer &= 0xffff,
        "lengths, every entry, hops, among joins, joined, restored, most",
    ),
    (
        "the counts are set to zero",
        |after| {
            if after.taken() {
                for node in 1..=after.state[COUNT] as usize {
                    after.state[8 * node + 6..][..2].fill(0);
                }
            }
        },
        "lengths, every entry, hops, among joins, joined, restored",
    ),
];

#[test]
fn other_places_and_lists_are_seen() {
    are_seen(&WRONG);
}
