//! Images made by hand, and the counts of some surveys, worked out by hand.

use crate::paper::{e1_short, E1};
use crate::random::{all_nodes, head, with_records};
use crate::script::set_of;
use crate::second::{digit, Counts, Settings};

/// An image of nodes that know only themselves, and of the further records (node, level, digit, neighbor).
pub fn image(settings: [u8; 3], ids: &[u32], more: &[[u8; 4]]) -> Vec<u8> {
    let [_, digits, _] = settings;
    let mut records = more.to_vec();
    for (node, id) in (1..).zip(ids) {
        let own = (0..digits).map(|level| [node, level, (id >> (4 * level) & 15) as u8, node]);
        records.extend(own);
    }
    // An owner stands before the others in its own entries.
    records.sort_by_key(|&[node, level, digit, near]| (node, level, digit, near != node, near));
    with_records(&head(settings, ids), &records)
}

/// An image with the counts of its survey while these nodes have failed.
pub struct Surveyed {
    pub name: &'static str,
    pub image: Vec<u8>,
    pub failed: u64,
    pub counts: Counts,
}

/// While nobody has failed.
pub fn surveyed() -> Vec<Surveyed> {
    let cases = [
        ("E1", E1.to_vec(), [2, 0, 0, 0, 0, 0, 0, 0, 0]),
        // P9 and P10.
        ("E1 short", e1_short(), [1, 0, 0, 0, 0, 0, 0, 0, 1]),
        ("one node", image([2, 2, 1], &[0], &[]), [0; 9]),
        ("chain", chain(&CHAIN), [8, 7, 6, 5, 4, 3, 2, 1, 36]),
        // Of the 36 pairs that arrive in the chain, 5 times 4 go through the gap.
        ("gap", chain(&gap()), [7, 5, 3, 1, 0, 0, 0, 0, 56]),
        // Nobody knows anybody else.
        ("64 alone", alone(), [0, 0, 0, 0, 0, 0, 0, 0, 4032]),
        // 64 times the coefficients of (1 + 3x)^3.
        (
            "64 of base 4",
            filled([4, 3, 1]),
            [576, 1728, 1728, 0, 0, 0, 0, 0, 0],
        ),
        // Of (1 + x)^6.
        (
            "64 of base 2",
            filled([2, 8, 4]),
            [384, 960, 1280, 960, 384, 64, 0, 0, 0],
        ),
        // Of (1 + 15x)(1 + 3x).
        (
            "64 of base 16",
            filled([16, 2, 2]),
            [1152, 2880, 0, 0, 0, 0, 0, 0, 0],
        ),
    ];
    let case = |(name, image, counts)| Surveyed {
        name,
        image,
        failed: 0,
        counts,
    };
    cases.map(case).into()
}

/// Some of these, and `five`, while nodes have failed, or numbers that no node has.
#[rustfmt::skip]
pub fn surveyed_without() -> Vec<Surveyed> {
    let cases = surveyed();
    let image = |name: &str| cases.iter().find(|case| case.name == name).expect(name).image.clone();
    let five = |failed: &[u64], [one, two, three, lost]: [u64; 4]| {
        ("five", five(), set_of(failed), [one, two, three, 0, 0, 0, 0, 0, lost])
    };
    let cases = [
        five(&[], [13, 6, 1, 0]),
        five(&[1], [8, 4, 0, 0]),
        five(&[2], [9, 3, 0, 0]),
        five(&[3], [9, 3, 0, 0]),
        five(&[2, 3], [5, 1, 0, 0]),
        five(&[2, 3, 4], [1, 0, 0, 1]),
        five(&[1, 2, 3, 4], [0, 0, 0, 0]),
        five(&[6, 64], [13, 6, 1, 0]),
        ("E1", image("E1"), set_of(&[2]), [0; 9]),
        ("E1", image("E1"), u64::MAX, [0; 9]),
        ("E1", image("E1"), !3, [2, 0, 0, 0, 0, 0, 0, 0, 0]),
        ("one node", image("one node"), 1, [0; 9]),
        // Four nodes below and four above; from below nobody comes past node 4.
        ("chain", image("chain"), set_of(&[5]), [6, 4, 2, 0, 0, 0, 0, 0, 44]),
        ("chain", image("chain"), set_of(&[1, 9]), [6, 5, 4, 3, 2, 1, 0, 0, 21]),
        ("64 alone", image("64 alone"), !3, [0, 0, 0, 0, 0, 0, 0, 0, 2]),
        ("64 alone", image("64 alone"), all_nodes(32), [0, 0, 0, 0, 0, 0, 0, 0, 992]),
        // Nobody goes through node 64, the digits of which are all 3: to it come 3, 12 and 48 in one to three hops, and from it 9, 27 and 27.
        ("64 of base 4", image("64 of base 4"), 1 << 63, [564, 1689, 1653, 0, 0, 0, 0, 0, 0]),
    ];
    let case = |(name, image, failed, counts)| Surveyed { name, image, failed, counts };
    cases.map(case).into()
}

/// Five nodes with entries of up to three, each entry in rising order. From node 1 every other is reached by one of 2, 3 and 4.
#[rustfmt::skip]
pub fn five() -> Vec<u8> {
    const NEIGHBORS: [[u8; 4]; 19] = [
        [1, 0, 1, 2], [1, 0, 1, 3], [1, 0, 1, 4],
        [2, 0, 0, 1], [2, 1, 1, 3], [2, 1, 1, 5], [2, 2, 1, 4],
        [3, 0, 0, 1], [3, 1, 0, 2], [3, 1, 0, 4], [3, 2, 1, 5],
        [4, 0, 0, 1], [4, 1, 1, 3], [4, 1, 1, 5], [4, 2, 0, 2],
        [5, 0, 0, 1], [5, 1, 0, 2], [5, 1, 0, 4], [5, 2, 0, 3],
    ];
    image([2, 3, 3], &[0x000, 0x001, 0x011, 0x101, 0x111], &NEIGHBORS)
}

/// Node n's neighbor is n + 1, for the one digit more that it has right.
#[rustfmt::skip]
const CHAIN: [[u8; 4]; 8] = [
    [1, 0, 1, 2], [2, 1, 1, 3], [3, 2, 1, 4], [4, 3, 1, 5], [5, 4, 1, 6], [6, 5, 1, 7], [7, 6, 1, 8], [8, 7, 1, 9],
];

/// Nine nodes, the ids of which have 0 to 8 digits 1 on the right. From n to m above it are m − n hops; a lookup back is lost at once.
fn chain(records: &[[u8; 4]]) -> Vec<u8> {
    let ids = [
        0,
        0x1,
        0x11,
        0x111,
        0x1111,
        0x1_1111,
        0x11_1111,
        0x111_1111,
        0x1111_1111,
    ];
    image([2, 8, 1], &ids, records)
}

/// The chain without the neighbor of node 5.
fn gap() -> Vec<[u8; 4]> {
    CHAIN.into_iter().filter(|record| record[0] != 5).collect()
}

fn alone() -> Vec<u8> {
    let ids: Vec<u32> = (0..64).map(|number| number * 0x0123_4567).collect();
    image([16, 8, 4], &ids, &[])
}

/// The first 64 ids, so that each digit takes all of its values, v of them, whatever the others are; and in each entry the first node that
/// qualifies. A lookup goes through the digits from the right and makes a hop for each in which the node that it has come to differs from its
/// end: one of the v values needs none. So in the product of 1 + (v − 1)x over the digits, the coefficient of x^h says to how many nodes h hops
/// lead from each.
fn filled([base, digits, depth]: [u8; 3]) -> Vec<u8> {
    let settings = Settings::new(base.into(), digits.into(), depth.into()).expect("in range");
    let ids: Vec<u32> = (0..).filter(|&id| settings.valid(id)).take(64).collect();
    let places = (0..digits).flat_map(|level| (0..base).map(move |wanted| (level, wanted)));
    let mut records = vec![];
    for (owner, &own_id) in (1..).zip(&ids) {
        let not_own = |&(level, wanted): &(u8, u8)| digit(own_id, level.into()) != wanted.into();
        for (level, wanted) in places.clone().filter(not_own) {
            let qualified = |id| settings.qualified(id, own_id, level.into(), wanted.into());
            let first = (1..).zip(&ids).find(|(_, &id)| qualified(id));
            records.extend(first.map(|(near, _)| [owner, level, wanted, near]));
        }
    }
    image([base, digits, depth], &ids, &records)
}

/// The longest image that is written, 92 records a node: 16 groups of four nodes that share all digits but the last; the groups differ in
/// digit 0. A node has the other three of its group in its own entries at levels 0 to 6, and all 63 others outside its own entries.
pub fn longest() -> Vec<u8> {
    const FOUR: [u8; 4] = [0, 1, 2, 3];
    let nodes = || (0..16).flat_map(|group| FOUR.map(|last| (group, last)));
    let number = |group: u8, last: u8| 4 * group + last + 1;
    let ids = nodes().map(|(group, last)| u32::from_le_bytes([group, 0, 0, last << 4]));
    let ids: Vec<u32> = ids.collect();
    let mut records = vec![];
    for (group, last) in nodes() {
        let owner = number(group, last);
        let mut owner_first = FOUR;
        owner_first.swap(0, last.into());
        for digit in 0..16 {
            let entry = if digit == group { owner_first } else { FOUR };
            records.extend(entry.map(|near| [owner, 0, digit, number(digit, near)]));
        }
        for level in 1..7 {
            records.extend(owner_first.map(|near| [owner, level, 0, number(group, near)]));
        }
        records.extend(FOUR.map(|near| [owner, 7, near, number(group, near)]));
    }
    with_records(&head([16, 8, 4], &ids), &records)
}
