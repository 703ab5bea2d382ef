//! Images: written by random runs, and damaged in every way that an image can be.

use super::joins::{damaged_joins, JOINS_KINDS};
use super::{before_joins, joins, run, some_state, Rng};
use crate::engine::Second;
use crate::script::Call;
use crate::second::network::Network;

/// What reading an image of version 1, whole or damaged, can answer once there is memory: 0, and these refusals.
pub const READING: [usize; 11] = [0, 3, 4, 5, 6, 7, 8, 9, 10, 17, 18];
/// The same of version 2.
pub const READING_2: [usize; 12] = [0, 3, 4, 5, 6, 7, 8, 9, 10, 17, 18, 24];

/// The image of version 2 of a network of some size, in any state.
pub fn image_2(rng: &mut Rng) -> Vec<u8> {
    let mut memory = some_state(rng);
    let length = (memory.call(&Second, &Call::WRITE_2) >> 8) as usize;
    memory.out[..length].to_vec()
}

/// The image of version 1 of a network of some size, K-consistent or not.
pub fn image(rng: &mut Rng) -> Vec<u8> {
    let calls = rng.pick(&[1, 5, 20, 60, 200]);
    let (_, mut memory) = run(rng, calls);
    loop {
        let outstanding = Network::decode(memory.used_state()).outstanding();
        if outstanding.is_empty() {
            break;
        }
        let (sender, receiver) = rng.pick(&outstanding);
        let (sender, receiver) = (sender as u64, receiver as u64);
        let answer = memory.call(&Second, &Call::Deliver { sender, receiver });
        assert_ne!(answer, 2, "a run leaves a sound state");
    }
    let length = (memory.call(&Second, &Call::WRITE_1) >> 8) as usize;
    memory.out[..length].to_vec()
}

/// The image cut at every byte.
pub fn cuts(image: &[u8]) -> impl DoubleEndedIterator<Item = Vec<u8>> + ExactSizeIterator + '_ {
    (0..image.len()).map(|length| image[..length].to_vec())
}

/// Each byte changed, one at a time: to its neighbors, to 0, and to something else.
pub fn changed_bytes<'a>(rng: &'a mut Rng, image: &'a [u8]) -> impl Iterator<Item = Vec<u8>> + 'a {
    (0..image.len()).flat_map(move |place| {
        let byte = image[place];
        let values = [
            byte.wrapping_add(1),
            byte.wrapping_sub(1),
            0,
            rng.word() as u8,
        ];
        values.map(|value| {
            let mut changed = image.to_vec();
            changed[place] = value;
            changed
        })
    })
}

/// Each record removed, repeated, and exchanged with the next, one at a time, under the right count; of an image of version 1.
pub fn changed_records(image: &[u8]) -> impl Iterator<Item = Vec<u8>> + '_ {
    let (head, records) = parts(image).expect("an image with its counts");
    (0..records.len()).flat_map(move |place| {
        let [mut removed, mut repeated, mut exchanged] = [0; 3].map(|_| records.clone());
        removed.remove(place);
        repeated.insert(place, records[place]);
        exchanged.swap(place, (place + 1) % records.len());
        [removed, repeated, exchanged].map(|records| with_records(&head, &records))
    })
}

/// What stands before the records, and the records, of an image of version 1; None for one without its counts.
pub fn parts(image: &[u8]) -> Option<(Vec<u8>, Vec<[u8; 4]>)> {
    let count = usize::from(*image.get(5)?);
    let (head, records) = image.split_at_checked(8 + 4 * count)?;
    let records = records
        .chunks_exact(4)
        .map(|record| record.try_into().expect("chunks of four"))
        .collect();
    Some((head.to_vec(), records))
}

/// What stands before the records, their count not yet set.
pub fn head([base, digits, depth]: [u8; 3], ids: &[u32]) -> Vec<u8> {
    let mut head = vec![4, 1, base, digits, depth, ids.len() as u8];
    head.extend(ids.iter().flat_map(|id| id.to_le_bytes()));
    head.extend([0; 2]);
    head
}

/// An image of this head with these records and their count.
pub fn with_records(head: &[u8], records: &[[u8; 4]]) -> Vec<u8> {
    let before = &head[..head.len() - 2];
    let count = (records.len() as u16).to_le_bytes();
    [before, &count, records.as_flattened()].concat()
}

/// The image with each neighbor left out once in so many times, but no owner: its entries are short, or all that they were.
pub fn thinned(rng: &mut Rng, image: &[u8], times: usize) -> Vec<u8> {
    let (before, behind) = image.split_at(before_joins(image).expect("it has its counts"));
    let (head, mut records) = parts(before).expect("it has its counts");
    records.retain(|[node, _, _, near]| node == near || !rng.once_in(times));
    [&with_records(&head, &records)[..], behind].concat()
}

/// The image with one damage of some kind; an image too short for it is cut instead.
pub fn damaged_image(rng: &mut Rng, image: &[u8]) -> Vec<u8> {
    let more = if image.get(1) == Some(&2) {
        JOINS_KINDS
    } else {
        0
    };
    let kind = rng.below(KINDS + more);
    damaged(rng, image, kind).unwrap_or_else(|| image[..rng.below(image.len())].to_vec())
}

/// The image with each kind of damage that it can have once.
pub fn image_damages(rng: &mut Rng, image: &[u8]) -> Vec<Vec<u8>> {
    let each = (0..KINDS + JOINS_KINDS).filter_map(|kind| damaged(rng, image, kind));
    each.collect()
}

/// Kinds of damage of any image; those of what version 2 adds follow.
const KINDS: usize = 16;

fn damaged(rng: &mut Rng, image: &[u8], kind: usize) -> Option<Vec<u8>> {
    let (before, behind) = image.split_at_checked(before_joins(image)?)?;
    if kind >= KINDS {
        let joins = joins(behind)?;
        return Some([before, &damaged_joins(rng, &joins, kind - KINDS)].concat());
    }
    let (mut head, mut records) = parts(before)?;
    let count = usize::from(head[5]);
    match kind {
        0 => head[rng.below(6)] = rng.word() as u8,
        1 => head[5] += 1,
        2 => head[5] -= 1,
        3 => add_to_count(&mut head, 1),
        4 => add_to_count(&mut head, u16::MAX),
        5 => head[6 + rng.below(4 * count)] ^= 1 << rng.below(8),
        6 => repeat_id(rng, &mut head),
        7..=10 => damage_records(rng, &mut records, kind),
        14 => damage_more_records(rng, &mut records),
        // The other version.
        15 => head[1] ^= 3,
        _ => {}
    }
    let mut image = match kind {
        7..=10 | 14 => with_records(&head, &records),
        _ => [&head, records.as_flattened()].concat(),
    };
    image.extend(behind);
    let longer = image.len() + [1, 4_000, 70_000][rng.below(3)];
    match kind {
        11 => image.push(0),
        12 => image.resize(longer, rng.word() as u8),
        13 => image.truncate(rng.below(image.len())),
        _ => {}
    }
    Some(image)
}

/// Changes the record count alone, wrapping.
fn add_to_count(head: &mut [u8], more: u16) {
    let count = head.last_chunk_mut().expect("a count ends it");
    *count = u16::from_le_bytes(*count).wrapping_add(more).to_le_bytes();
}

/// One id over another, at times over itself.
fn repeat_id(rng: &mut Rng, head: &mut [u8]) {
    let count = usize::from(head[5]);
    let (from, to) = (6 + 4 * rng.below(count), 6 + 4 * rng.below(count));
    head.copy_within(from..from + 4, to);
}

/// Records exchanged, repeated, removed, or one of their bytes changed.
fn damage_records(rng: &mut Rng, records: &mut Vec<[u8; 4]>, kind: usize) {
    let last = records.len() - 1;
    let (one, other) = (rng.below(last + 1), rng.below(last + 1));
    match kind {
        7 if rng.once_in(2) => records.swap(one, other),
        7 => records.swap(one, (one + 1).min(last)),
        8 => records.insert(one, records[one]),
        9 => drop(records.remove(one)),
        _ => {
            let byte = &mut records[one][rng.below(4)];
            *byte = rng.pick(&[0, byte.wrapping_add(1), byte.wrapping_sub(1), 65, 255]);
        }
    }
}

/// Two to four damages of the records, so that several sentences may hold.
fn damage_more_records(rng: &mut Rng, records: &mut Vec<[u8; 4]>) {
    for _ in 0..rng.between(2, 4) {
        let kind = 7 + rng.below(4);
        if !records.is_empty() {
            damage_records(rng, records, kind);
        }
    }
}
