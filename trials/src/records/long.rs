//! Images with as many records as 65,535 bytes hold, and the longest that a table can have.

use super::edited::{Edited, LEVEL, NEIGHBOR};
use super::Judged;
use crate::by_hand::longest;
use crate::random::head;

/// The most records of an image of one node; with each further node it is one less.
const MOST: usize = 16_380;

/// Places near which one more digit or byte is needed, and the last.
const PLACES: [usize; 9] = [255, 256, 257, 4_096, 9_999, 10_000, 10_001, 16_000, MOST];

pub fn long() -> Vec<Judged> {
    let mut all: Vec<Judged> = PLACES.into_iter().flat_map(falling_at).collect();
    all.extend(many_nodes());
    all.extend(several());
    all.extend(full_tables());
    all
}

/// An image of one node, base 2 and two digits: the record 1 1 1 1 again and again, which is not below itself.
fn of_one() -> Edited {
    Edited {
        head: head([2, 2, 1], &[0]),
        records: vec![[1, 1, 1, 1]; MOST],
    }
}

/// Below by digit and by level, and out of range, at this place.
fn falling_at(place: usize) -> Vec<Judged> {
    let bad = [[1, 1, 0, 1], [1, 0, 1, 1], [1, 2, 0, 1], [1, 1, 2, 1]];
    let judged = |record| {
        let name = format!("{record:?} at {place}");
        of_one().put(place, record).judged(name, 10, place)
    };
    bad.map(judged).into()
}

/// A record of a node before, as the last of so many nodes' image; and without it no record is below another.
fn many_nodes() -> Vec<Judged> {
    let mut all = vec![];
    for nodes in [2, 3, 64] {
        let ids: Vec<u32> = (0..nodes.into()).collect();
        let most = MOST + 1 - ids.len();
        let rising = Edited {
            head: head([16, 2, 1], &ids),
            records: vec![[nodes, 0, (nodes - 1) % 16, nodes]; most],
        };
        all.push(rising.judged(format!("repeats with {nodes} nodes"), 17, 2));
        let falling = rising.put(most, [nodes - 1, 1, 15, nodes]);
        all.push(falling.judged(format!("below by node, of {nodes}"), 10, most));
    }
    all
}

/// Two faults far apart, and what comes before or after them.
fn several() -> Vec<Judged> {
    let level = |place| of_one().with(place, LEVEL, 2);
    let two = level(12_345).with(MOST, LEVEL, 2);
    let unknown = level(12_345).with(MOST, NEIGHBOR, 2);
    vec![
        of_one().judged("17 at the start of many", 17, 1),
        two.judged("10, then 10 far behind", 10, 12_345),
        unknown.judged("10, then 9 far behind", 9, 0),
        of_one().again(MOST).judged("one record too many", 6, 0),
    ]
}

/// 64 nodes with 92 records each, of which the last eight are the own entry at level 6 and four entries of one at level 7.
#[rustfmt::skip]
fn full_tables() -> Vec<Judged> {
    let full = || Edited::new(&longest());
    vec![
        full().judged("full tables", 0, 0),
        full().again(5_888).judged("a repeat behind full tables", 17, 5_889),
        full().with(5_888, NEIGHBOR, 1).judged("a wrong last neighbor", 17, 5_888),
        full().with(5_888, LEVEL, 8).judged("a last level out of range", 10, 5_888),
        full().exchanged(5_881, 5_882).judged("an owner second in full tables", 18, 5_881),
        full().without(5_888).judged("the last of full tables absent", 18, 0),
        full().turned(92).judged("node 1 of full tables last", 10, 5_797),
        full().reversed().judged("full tables turned round", 10, 2),
    ]
}
