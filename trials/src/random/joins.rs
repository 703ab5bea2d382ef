//! What an image of version 2 has behind its records: taken apart, put together, and damaged.

use super::Rng;

/// Its two sections: one piece for each node that is not in system, and two counts for each node.
#[derive(Clone, Debug, Default, PartialEq, Eq)]
pub struct Joins {
    pub unsettled: Vec<[u8; 20]>,
    pub panels: Vec<[u8; 2]>,
}

/// Where the records of an image end: in version 2 by its counts, else where it ends. None without counts.
pub fn before_joins(image: &[u8]) -> Option<usize> {
    if image.get(1) != Some(&2) {
        return Some(image.len());
    }
    let head = 8 + 4 * usize::from(*image.get(5)?);
    let count = image.get(..head)?.last_chunk()?;
    Some(head + 4 * usize::from(u16::from_le_bytes(*count)))
}

/// The sections of these bytes, if their counts give exactly the length.
pub fn joins(bytes: &[u8]) -> Option<Joins> {
    let (&count, rest) = bytes.split_first()?;
    let (unsettled, rest) = rest.split_at_checked(20 * usize::from(count))?;
    let (&count, panels) = rest.split_first()?;
    let joins = Joins {
        unsettled: unsettled.as_chunks().0.to_vec(),
        panels: panels.as_chunks().0.to_vec(),
    };
    (panels.len() == 2 * usize::from(count)).then_some(joins)
}

impl Joins {
    /// With their counts.
    pub fn bytes(&self) -> Vec<u8> {
        let counts = [self.unsettled.len() as u8, self.panels.len() as u8];
        let (unsettled, panels) = (self.unsettled.as_flattened(), self.panels.as_flattened());
        [&counts[..1], unsettled, &counts[1..], panels].concat()
    }
}

/// Kinds of damage of the sections.
pub const JOINS_KINDS: usize = 4;

/// A byte changed, a count changed alone, or one section changed under its right count.
pub fn damaged_joins(rng: &mut Rng, whole: &Joins, kind: usize) -> Vec<u8> {
    let mut joins = whole.clone();
    match kind {
        0 | 1 => {
            let mut bytes = joins.bytes();
            let counts = [0, bytes.len() - 1 - 2 * joins.panels.len()];
            let any = rng.below(bytes.len());
            let place = if kind == 1 { rng.pick(&counts) } else { any };
            bytes[place] = changed(rng, bytes[place]);
            return bytes;
        }
        2 => damage_panels(rng, &mut joins.panels),
        _ => damage_unsettled(rng, &mut joins.unsettled, whole.panels.len()),
    }
    joins.bytes()
}

fn changed(rng: &mut Rng, byte: u8) -> u8 {
    let any = rng.word() as u8;
    let values = [byte.wrapping_add(1), byte.wrapping_sub(1), 0, 255, any];
    rng.pick(&values)
}

/// One more, one less, two exchanged, or one with another count; of none one more.
fn damage_panels(rng: &mut Rng, panels: &mut Vec<[u8; 2]>) {
    if panels.is_empty() {
        return panels.push([0; 2]);
    }
    let (one, other) = (rng.below(panels.len()), rng.below(panels.len()));
    match rng.below(5) {
        0 => panels.insert(one, panels[one]),
        1 => drop(panels.remove(one)),
        2 => panels.swap(one, other),
        3 => panels[one].reverse(),
        _ => {
            let count = &mut panels[one][rng.below(2)];
            *count = changed(rng, *count);
        }
    }
}

/// A node more, or one twice, gone, in another place, or with another field.
fn damage_unsettled(rng: &mut Rng, unsettled: &mut Vec<[u8; 20]>, count: usize) {
    if unsettled.is_empty() || rng.once_in(6) {
        let mut more = [0; 20];
        more[0] = rng.below(count + 2) as u8;
        more[1] = rng.between(0, 4) as u8;
        more[3] = rng.below(count + 2) as u8;
        more[4 + rng.below(16)] = rng.pick(&[0, 1, 2, 255]);
        return unsettled.insert(rng.below(unsettled.len() + 1), more);
    }
    let (one, other) = (rng.below(unsettled.len()), rng.below(unsettled.len()));
    match rng.below(5) {
        0 => unsettled.insert(one, unsettled[one]),
        1 => drop(unsettled.remove(one)),
        2 => unsettled.swap(one, other),
        3 => unsettled[one][4..].rotate_left(8),
        _ => {
            let place = rng.pick(&[0, 1, 2, 3, 4, 5, 11, 12, 13, 19]);
            let byte = &mut unsettled[one][place];
            let values = [changed(rng, *byte), rng.below(count + 2) as u8];
            *byte = rng.pick(&values);
        }
    }
}
