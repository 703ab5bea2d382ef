//! Every two records of a small image replaced by anything, so that faults meet in one entry too.

use super::Whole;

/// Of two images, one with room for one in an entry and one with room for two.
pub fn two_replaced() -> impl Iterator<Item = Vec<u8>> {
    let wholes = [
        Whole::new([2, 2, 1], &[0x00, 0x01]),
        Whole::new([2, 2, 2], &[0x00, 0x10]),
    ];
    wholes.into_iter().flat_map(|whole| {
        let records = whole.records.len();
        let places =
            (0..records).flat_map(move |one| (one + 1..records).map(move |two| (one, two)));
        places.flat_map(move |(one, two)| replaced(&whole, one, two))
    })
}

fn replaced(whole: &Whole, one: usize, two: usize) -> Vec<Vec<u8>> {
    let any = any();
    let mut images = vec![];
    for first in &any {
        for second in &any {
            let between = &whole.records[one + 1..two];
            let (before, after) = (&whole.records[..one], &whole.records[two + 1..]);
            let records = [before, first, between, second, after].concat();
            images.push(whole.holding(records).image());
        }
    }
    images
}

/// No record, one with a neighbor that is no node, and every one of two nodes with levels and digits up to the first out of range.
fn any() -> Vec<Vec<[u8; 4]>> {
    let mut any = vec![vec![], vec![[1, 0, 0, 3]]];
    for node in 1..=2 {
        for level in 0..=2 {
            for digit in 0..=2 {
                any.extend([1, 2].map(|near| vec![[node, level, digit, near]]));
            }
        }
    }
    any
}
