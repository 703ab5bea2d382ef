//! Which refusal wins: of reading images of version 2, and of writing.

use super::networks::{all_statuses, ALL_STATUSES_BEHIND};
use super::steps::write;
use crate::compare::Pair;
use crate::engine::{Engine, Second};
use crate::lent::ALL;
use crate::paper::JOINING;
use crate::random::joins;
use crate::script::{Call, Lend, Line};
use crate::steps::{expect, expect_kept, lend};

/// Bytes of the smallest join's image that are changed, and the answer.
type Case = (&'static [(usize, u8)], u64);

/// Its length stays right unless a count changes: byte 32 counts the nodes that are not settled, 33 to 52 are node 2's, 53 counts the counts, and 54 to 57 are
/// these.
const CHANGED: [Case; 57] = [
    (&[], 0),
    (&[(0, 5)], 3),
    (&[(1, 0)], 4),
    (&[(1, 3)], 4),
    (&[(1, 255), (2, 1)], 4),
    (&[(1, 1)], 6), // version 1 ends with its records
    (&[(2, 1), (34, 0)], 5),
    (&[(4, 5), (5, 0)], 5),
    (&[(5, 0)], 6),
    (&[(5, 1)], 6),
    (&[(5, 65)], 6),
    (&[(14, 3)], 6),
    (&[(32, 0)], 6),
    (&[(32, 2)], 6),
    (&[(32, 255), (33, 0)], 6),
    (&[(53, 0)], 6),
    (&[(53, 1)], 6),
    (&[(53, 3)], 6),
    (&[(53, 255), (34, 0)], 6),
    (&[(6, 2), (34, 0)], 7),
    (&[(10, 0), (34, 0)], 8),
    (&[(31, 3), (33, 0)], 9),
    (&[(29, 2), (33, 0)], 0x40a),
    (&[(27, 1), (34, 0)], 0x311),
    (&[(33, 0)], 24), // no node, and not 9
    (&[(33, 3)], 24),
    (&[(33, 255)], 24),
    (&[(33, 1)], 24), // it copies from itself
    (&[(34, 0)], 24), // settled
    (&[(34, 0), (36, 0)], 24),
    (&[(34, 2)], 0), // waiting
    (&[(34, 3)], 24),
    (&[(34, 3), (36, 0), (37, 1)], 24), // nobody is told
    (&[(34, 4)], 24),
    (&[(34, 255)], 24),
    (&[(35, 1)], 24),
    (&[(36, 0)], 24),
    (&[(36, 2)], 24),
    (&[(36, 3)], 24),
    (&[(36, 255)], 24),
    (&[(37, 1)], 24),
    (&[(44, 128)], 24),
    (&[(45, 1)], 24),
    (&[(52, 128)], 24),
    (&[(54, 3)], 0), // d + 1
    (&[(54, 4)], 24),
    (&[(54, 255)], 24),
    (&[(55, 62)], 0),
    (&[(55, 63)], 24),
    (&[(56, 0)], 0),
    (&[(56, 2)], 24),
    (&[(34, 2), (56, 2)], 0),
    (&[(34, 2), (56, 3)], 24),
    (&[(57, 1)], 24),
    (&[(54, 3), (55, 62), (56, 0)], 0),
    (&[(33, 0), (53, 1)], 6),
    (&[(1, 4), (53, 1)], 4),
];

/// What stands in place of the bytes of the smallest join's image from one place to another, and the answer; the bytes behind it are kept. From 33 on two nodes
/// are counted.
type Replaced = (usize, usize, &'static [u8], u64);

#[rustfmt::skip]
const REPLACED: [Replaced; 19] = [
    (53, 58, &[1, 0, 0], 24), // counts of one node, of three, of none, of 64 and of 65
    (53, 58, &[3, 0, 0, 1, 0, 0, 0], 24),
    (53, 58, &[0], 24),
    (53, 58, &[64; 129], 24),
    (53, 58, &[65; 131], 24),
    (53, 58, &[2, 0, 0, 1, 0, 0], 6),
    (53, 58, &[2, 0, 0, 1], 6),
    (53, 58, &[2], 6),
    (53, 58, &[], 6),
    (32, 58, &[], 6),
    (32, 58, &[0], 6),
    (32, 58, &[1], 6),
    (32, 53, &[0], 0), // node 2 has settled, with the one request that it sent
    (32, 58, &[0, 2, 0, 0, 0, 0], 0),
    (32, 58, &[0, 3, 0, 0, 0, 0, 0, 0], 24),
    // Node 2 twice; node 2 before node 1, and behind it.
    (33, 53, &[2, 1, 0, 1, 0, 0, 0, 0, 0, 0, 0, 0, 0, 0, 0, 0, 0, 0, 0, 0, 2, 1, 0, 1, 0, 0, 0, 0, 0, 0, 0, 0, 0, 0, 0, 0, 0, 0, 0, 0], 24),
    (33, 53, &[2, 1, 0, 1, 0, 0, 0, 0, 0, 0, 0, 0, 0, 0, 0, 0, 0, 0, 0, 0, 1, 2, 0, 2, 0, 0, 0, 0, 0, 0, 0, 0, 0, 0, 0, 0, 0, 0, 0, 0], 24),
    (33, 53, &[1, 2, 0, 2, 0, 0, 0, 0, 0, 0, 0, 0, 0, 0, 0, 0, 0, 0, 0, 0, 2, 1, 0, 1, 0, 0, 0, 0, 0, 0, 0, 0, 0, 0, 0, 0, 0, 0, 0, 0], 24),
    // Node 2 stands in the table of node 1, where a copying one may not.
    (14, 20, &[5, 0, 1, 0, 0, 1, 1, 0, 1, 2], 24),
];

pub fn in_order(a: &dyn Engine, b: &dyn Engine) -> Result<(), String> {
    let mut pair = Pair::new(a, b);
    for (changes, answer) in CHANGED {
        let mut image = JOINING.to_vec();
        for &(place, value) in changes {
            image[place] = value;
        }
        judged(&mut pair, image, answer)?;
    }
    for (from, to, bytes, answer) in REPLACED {
        let mut image = JOINING.to_vec();
        image.splice(from..to, bytes.iter().copied());
        if from == 33 {
            image[32] = 2;
        }
        judged(&mut pair, image, answer)?;
    }
    // A settled status, and no record of an own entry.
    let mut image = JOINING.to_vec();
    (image[14], image[34]) = (3, 0);
    image.drain(28..32);
    judged(&mut pair, image, 18)?;
    for (numbers, answer) in NUMBERS {
        judged(&mut pair, numbered(numbers)?, answer)?;
    }
    writing(&mut pair)
}

/// Which of the nodes 3, 4 and 5 section four has in the network of all statuses, in which order, and the answer. Those that it has not are settled.
const NUMBERS: [(&[u8], u64); 15] = [
    (&[3, 4, 5], 0),
    (&[4, 5], 0),
    (&[3, 5], 0),
    (&[3, 4], 0),
    (&[4], 0),
    (&[], 0),
    (&[3, 5, 4], 24),
    (&[4, 3, 5], 24),
    (&[5, 4, 3], 24),
    (&[5, 4], 24),
    (&[3, 3, 4, 5], 24),
    (&[3, 4, 4, 5], 24),
    (&[3, 4, 5, 5], 24),
    (&[4, 4], 24),
    (&[3, 4, 5, 3, 4, 5], 24),
];

fn numbered(numbers: &[u8]) -> Result<Vec<u8>, String> {
    let image = write(&Second, &all_statuses(), 2)?;
    let (front, behind) = image.split_at(image.len() - ALL_STATUSES_BEHIND.len());
    let mut changed = joins(behind).expect("it has its counts");
    let pieces = changed.unsettled.clone();
    let piece = |number: &u8| pieces[usize::from(number - 3)];
    changed.unsettled = numbers.iter().map(piece).collect();
    Ok([front, &changed.bytes()].concat())
}

/// Read over a network of another shape, in memory that is lent short, just enough, and longer.
fn judged(pair: &mut Pair, image: Vec<u8>, answer: u64) -> Result<(), String> {
    let other = Call::Found {
        settings: [16, 8, 4],
        id: 0x1234_5678,
    };
    pair.obey(&Line::Lend(ALL))?;
    expect(pair, other, 0)?;
    for (state, tables) in [(519, 32_768), (520, 32_767), (0, 0)] {
        lend(pair, (state, tables, 0))?;
        let image = image.clone();
        expect_kept(pair, Call::Read { image }, 1)?;
    }
    for (state, tables, unused) in [(520, 32_768, 1), (521, 32_769, 0)] {
        lend(pair, (state, tables, unused))?;
        let read = Call::Read {
            image: image.clone(),
        };
        match answer {
            0 => expect(pair, read, 0)?,
            _ => expect_kept(pair, read, answer)?,
        }
    }
    Ok(())
}

/// Words and bytes of state, tables and output lent, what stands in an unused word, the version, and the answer; node 2 copies.
const WRITING: [(usize, usize, usize, u64, u64, u64); 21] = [
    (519, 32_768, 0, 1, 3, 1),
    (519, 32_768, 58, 0, 2, 1),
    (520, 32_767, 58, 0, 1, 1),
    (520, 32_768, 58, 1, 2, 2),
    (520, 32_768, 58, 1, 1, 2),
    (520, 32_768, 0, 1, 0, 2),
    (520, 32_768, 58, 0, 0, 4),
    (520, 32_768, 0, 0, 3, 4),
    (520, 32_768, 58, 0, 255, 4),
    (520, 32_768, 58, 0, 256 + 1, 4),
    (520, 32_768, 58, 0, 256 + 2, 4),
    (520, 32_768, 58, 0, (1 << 32) + 2, 4),
    (520, 32_768, 58, 0, 1 << 63, 4),
    (520, 32_768, 58, 0, u64::MAX, 4),
    (520, 32_768, 58, 0, 1, 15),
    (520, 32_768, 0, 0, 1, 15),
    (520, 32_768, 0, 0, 2, 16),
    (520, 32_768, 57, 0, 2, 16),
    (520, 32_768, 58, 0, 2, 58 << 8),
    (521, 32_769, 59, 0, 2, 58 << 8),
    (521, 32_769, 59, 0, 1, 15),
];

fn writing(pair: &mut Pair) -> Result<(), String> {
    pair.obey(&Line::Lend(ALL))?;
    let image = JOINING.to_vec();
    expect(pair, Call::Read { image }, 0)?;
    for (state, tables, out, unused, version, answer) in WRITING {
        let (place, value) = (7, unused);
        pair.obey(&Line::Word { place, value })?;
        pair.obey(&Line::Lend(Lend { state, tables, out }))?;
        expect_kept(pair, Call::Write { version }, answer)?;
    }
    Ok(())
}
