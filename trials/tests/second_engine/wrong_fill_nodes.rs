//! Fillings that add other nodes.

use trials::second::memory::COUNT;

use crate::wrong_fills::{are_seen, record_of, Wrong, ALL, ALL_BUT_IN_ORDER};

const WRONG: [Wrong; 14] = [
    (
        "the highest absent ones",
        |after| {
            after.instead(|after, place, entry| {
                let highest = after.absent(place).into_iter().rev();
                let highest = highest.take(entry.len());
                highest.map(|near| record_of(place, near)).collect()
            })
        },
        ALL_BUT_IN_ORDER,
    ),
    (
        "the second lowest where there is one",
        |after| {
            after.instead(|after, place, entry| {
                let absent = after.absent(place);
                let skipped = usize::from(absent.len() > entry.len());
                let others = absent.into_iter().skip(skipped).take(entry.len());
                others.map(|near| record_of(place, near)).collect()
            })
        },
        ALL_BUT_IN_ORDER,
    ),
    (
        "two of an entry the other way round",
        |after| after.instead(|_, _, entry| entry.into_iter().rev().collect()),
        ALL_BUT_IN_ORDER,
    ),
    (
        "one too few",
        |after| {
            if after.taken() {
                let list = after.list();
                after.add(&list[..list.len().saturating_sub(1)]);
            }
        },
        ALL,
    ),
    (
        "one too many where another qualifies",
        |after| {
            after.instead(|after, place, entry| {
                let absent = after.absent(place).into_iter();
                let room = 4 - after.held(place).len();
                let more = absent.take(room.min(entry.len() + 1));
                more.map(|near| record_of(place, near)).collect()
            })
        },
        "by hand, lengths, every entry, hops, among joins, joined, restored",
    ),
    (
        "the owner is not counted",
        |after| {
            after.instead(|after, place, mut entry| {
                let depth = after.used_state()[2] as usize;
                let own = usize::from(after.is_own(place));
                let must = depth.min(after.qualified(place).len() - own);
                entry.truncate(must.saturating_sub(after.held(place).len()));
                entry
            })
        },
        ALL_BUT_IN_ORDER,
    ),
    (
        "those that stand there count twice",
        |after| {
            after.instead(|after, place, mut entry| {
                let counted = after.held(place).len();
                entry.truncate(entry.len().saturating_sub(counted));
                entry
            })
        },
        ALL_BUT_IN_ORDER,
    ),
    (
        "one that stands there is added again",
        |after| {
            after.instead(|after, place, mut entry| {
                let again = after.held(place).first().copied();
                entry[0][3] = again.unwrap_or(entry[0][3]);
                entry
            })
        },
        ALL_BUT_IN_ORDER,
    ),
    (
        "only empty entries are filled",
        |after| {
            after.instead(|after, place, entry| match after.held(place).is_empty() {
                true => entry,
                false => vec![],
            })
        },
        ALL_BUT_IN_ORDER,
    ),
    (
        "an entry gets one at most",
        |after| after.instead(|_, _, entry| entry[..1].to_vec()),
        ALL_BUT_IN_ORDER,
    ),
    (
        "only the first short entry",
        |after| {
            if after.taken() {
                let first = after.entries().into_iter().next();
                after.add(&first.unwrap_or_default());
            }
        },
        ALL_BUT_IN_ORDER,
    ),
    (
        "only the first short node",
        |after| {
            if after.taken() {
                let mut list = after.list();
                let first = list.first().copied();
                list.retain(|record| Some(record[0]) == first.map(|first| first[0]));
                after.add(&list);
            }
        },
        ALL_BUT_IN_ORDER,
    ),
    (
        "only the lowest level",
        |after| {
            after.instead(|_, [_, level, _], entry| match level {
                0 => entry,
                _ => vec![],
            })
        },
        ALL_BUT_IN_ORDER,
    ),
    (
        "one that does not qualify where fewer than the depth do",
        |after| {
            after.instead(|after, place, mut entry| {
                let (qualified, held) = (after.qualified(place), after.held(place).len());
                let depth = after.used_state()[2] as usize;
                let nodes = 1..=after.used_state()[COUNT] as u8;
                let mut others = nodes.filter(|node| !qualified.contains(node));
                let more = others.next().filter(|_| held + entry.len() < depth);
                entry.extend(more.map(|near| record_of(place, near)));
                entry
            })
        },
        ALL_BUT_IN_ORDER,
    ),
];

#[test]
fn other_additions_are_seen() {
    are_seen(&WRONG);
}
