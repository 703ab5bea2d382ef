//! Images byte by byte, as documents 01 and 02 have them: what writing must give of a sound state, and what reading must answer and leave.

use crate::plain::{plain_records, plain_sound};
use crate::second::memory::{State, Tables, STATE_WORDS, TABLE_BYTES};

/// The image of a sound state.
pub fn written(state: &State, tables: &Tables, version: u8) -> Vec<u8> {
    let [base, digits, depth, nodes] = [0, 1, 2, 3].map(|place| state[place] as u8);
    let mut image = vec![4, version, base, digits, depth, nodes];
    for node in 1..=usize::from(nodes) {
        image.extend((0..4).map(|byte| (state[8 * node] >> (8 * byte)) as u8));
    }
    let records = records(state, tables);
    image.extend([records.len() as u8, (records.len() >> 8) as u8]);
    image.extend(records.as_flattened());
    if version == 2 {
        image.extend(unsettled(state));
        image.extend(counts(state));
    }
    image
}

fn records(state: &State, tables: &Tables) -> Vec<[u8; 4]> {
    let [base, digits, _, nodes] = [0, 1, 2, 3].map(|place| state[place] as usize);
    let mut records = vec![];
    for node in 1..=nodes {
        for level in 0..digits {
            for digit in 0..base {
                let slots = &tables[512 * (node - 1) + 64 * level + 4 * digit..][..4];
                let place = [node, level, digit].map(|number| number as u8);
                let filled = slots.iter().filter(|&&slot| slot != 0);
                records.extend(filled.map(|&slot| [place[0], place[1], place[2], slot]));
            }
        }
    }
    records
}

/// Section four, with its count.
fn unsettled(state: &State) -> Vec<u8> {
    let nodes = 1..=state[3] as usize;
    let joining: Vec<usize> = nodes.filter(|node| state[8 * node + 1] != 0).collect();
    let mut section = vec![joining.len() as u8];
    for node in joining {
        section.push(node as u8);
        section.extend((1..=3).map(|field| state[8 * node + field] as u8));
        for set in [4, 5] {
            section.extend((0..8).map(|byte| (state[8 * node + set] >> (8 * byte)) as u8));
        }
    }
    section
}

/// Section five, with its count.
fn counts(state: &State) -> Vec<u8> {
    let nodes = 1..=state[3] as usize;
    let both = nodes.flat_map(|node| [6, 7].map(|field| state[8 * node + field] as u8));
    [state[3] as u8].into_iter().chain(both).collect()
}

/// What reading an image must answer, and what a taken one must leave.
pub struct Read {
    pub answer: u64,
    pub restored: Option<Restored>,
}

pub struct Restored {
    pub state: Box<State>,
    pub tables: Box<Tables>,
}

impl Read {
    fn refused(answer: u64) -> Read {
        Read {
            answer,
            restored: None,
        }
    }
}

/// Of any image, once there is memory.
pub fn read(image: &[u8]) -> Read {
    let [start, version, base, digits, depth] = match image.first_chunk() {
        Some(settings) => *settings,
        None => return Read::refused(3),
    };
    let in_range =
        (2..=16).contains(&base) && (1..=8).contains(&digits) && (1..=4).contains(&depth);
    let early = match (start, version) {
        (4, 1 | 2) if !in_range => Some(5),
        (4, 1 | 2) => (!fits(image)).then_some(6),
        (4, _) => Some(4),
        _ => Some(3),
    };
    if let Some(refusal) = early.or_else(|| bad_ids(image)) {
        return Read::refused(refusal);
    }
    let records = &image[8 + 4 * usize::from(image[5])..];
    let count = records_count(image).expect("it fits");
    match plain_records(image, &records.as_chunks().0[..count]) {
        (0, _) => read_behind(image),
        (refusal, place) => Read::refused(u64::from(refusal) | place << 8),
    }
}

/// Of an image whose first three sections are right, with their counts.
pub fn read_behind(image: &[u8]) -> Read {
    if !fits(image) {
        return Read::refused(6);
    }
    match restored(image) {
        Some(restored) => Read {
            answer: 0,
            restored: Some(restored),
        },
        None => Read::refused(24),
    }
}

/// Sentence 6: are all counts there, in range, and is the length what they say and not too long?
fn fits(image: &[u8]) -> bool {
    let length = length(image);
    length.is_some_and(|length| length == image.len() && length <= 65_535)
}

/// By the image's own counts; none where one is missing or out of range.
fn length(image: &[u8]) -> Option<usize> {
    let count = |place: usize| image.get(place).map(|&byte| usize::from(byte));
    let nodes = count(5).filter(|nodes| (1..=64).contains(nodes))?;
    let mut length = 8 + 4 * nodes + 4 * records_count(image)?;
    if image[1] == 2 {
        length += 1 + 20 * count(length)?;
        length += 1 + 2 * count(length)?;
    }
    Some(length)
}

fn records_count(image: &[u8]) -> Option<usize> {
    let place = 6 + 4 * usize::from(*image.get(5)?);
    let (low, high) = (*image.get(place)?, *image.get(place + 1)?);
    Some(usize::from(low) + 256 * usize::from(high))
}

/// Sentences 7 and 8 of an image that fits.
fn bad_ids(image: &[u8]) -> Option<u64> {
    let (base, digits, nodes) = (image[2], image[3], usize::from(image[5]));
    let ids: Vec<&[u8]> = (0..nodes).map(|node| &image[6 + 4 * node..][..4]).collect();
    let digit = |id: &[u8], level: u8| {
        let byte = id[usize::from(level / 2)];
        if level % 2 == 0 {
            byte & 15
        } else {
            byte >> 4
        }
    };
    let bad = |id: &&[u8]| {
        (0..digits).any(|level| digit(id, level) >= base)
            || (digits..8).any(|level| digit(id, level) != 0)
    };
    if ids.iter().any(bad) {
        return Some(7);
    }
    let twice = (0..nodes).any(|node| ids[..node].contains(&ids[node]));
    twice.then_some(8)
}

/// Sentence 24: the state of an image that nothing earlier refuses; none if it is refused.
fn restored(image: &[u8]) -> Option<Restored> {
    let mut state = Box::new([0; STATE_WORDS]);
    let mut tables = Box::new([0; TABLE_BYTES]);
    let nodes = usize::from(image[5]);
    for (place, byte) in (0..).zip(&image[2..6]) {
        state[place] = u64::from(*byte);
    }
    for node in 1..=nodes {
        state[8 * node] = low_first(&image[2 + 4 * node..][..4]);
    }
    let mut behind = 8 + 4 * nodes;
    for _ in 0..records_count(image)? {
        let [node, level, digit, near] = [0, 1, 2, 3].map(|byte| image[behind + byte]);
        let [node, level, digit] = [node, level, digit].map(usize::from);
        let place = 512 * node.checked_sub(1)? + 64 * level + 4 * digit;
        let slots = tables.get_mut(place..place + 4)?;
        *slots.iter_mut().find(|slot| **slot == 0)? = near;
        behind += 4;
    }
    if image[1] == 2 {
        put_unsettled(&mut state, nodes, &image[behind..])?;
        plain_sound(&state, &tables).then_some(())?;
    }
    Some(Restored { state, tables })
}

/// Sections four and five of an image that fits; none if they are out of order, or name what they may not.
fn put_unsettled(state: &mut State, nodes: usize, sections: &[u8]) -> Option<()> {
    let (mut at, mut before) = (1, 0);
    for _ in 0..sections[0] {
        let node = usize::from(sections[at]);
        let in_order = node > before && node <= nodes && sections[at + 1] != 0;
        in_order.then_some(())?;
        for field in 1..=3 {
            state[8 * node + field] = sections[at + field].into();
        }
        state[8 * node + 4] = low_first(&sections[at + 4..at + 12]);
        state[8 * node + 5] = low_first(&sections[at + 12..at + 20]);
        (at, before) = (at + 20, node);
    }
    (usize::from(sections[at]) == nodes).then_some(())?;
    for node in 1..=nodes {
        state[8 * node + 6] = sections[at + 2 * node - 1].into();
        state[8 * node + 7] = sections[at + 2 * node].into();
    }
    Some(())
}

fn low_first(bytes: &[u8]) -> u64 {
    let bytes = bytes.iter().rev();
    bytes.fold(0, |number, &byte| 256 * number + u64::from(byte))
}
