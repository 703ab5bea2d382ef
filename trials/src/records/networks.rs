//! Right images to put faults into.

use super::edited::Edited;
use crate::random::head;
use crate::second::{digit, Settings};

/// An image that reading takes, by its parts.
pub struct Whole {
    pub settings: Settings,
    pub ids: Vec<u32>,
    pub records: Vec<[u8; 4]>,
}

/// Small networks of several settings: entries of one and of several, with room and without.
pub fn networks() -> Vec<Whole> {
    let high = [
        0xffff_ffff,
        0x0fff_ffff,
        0x1fff_ffff,
        0x2fff_ffff,
        0x3fff_ffff,
        0x1234_5678,
    ];
    vec![
        Whole::new([2, 2, 1], &[0x0]),
        Whole::new([2, 2, 1], &[0x00, 0x01]),
        Whole::new([2, 2, 2], &[0x00, 0x10, 0x01, 0x11]),
        Whole::new([3, 1, 2], &[2, 0, 1]),
        Whole::new([4, 2, 1], &[0x00, 0x30, 0x13, 0x23, 0x33]),
        Whole::new([2, 3, 2], &[0x000, 0x100, 0x010, 0x110, 0x111]),
        Whole::new([2, 4, 3], &[0x0000, 0x1000, 0x0100, 0x1100, 0x0011]),
        Whole::new([16, 8, 4], &high),
    ]
}

impl Whole {
    /// In each entry the owner, if it is its own, and then the first others that qualify, as many as it holds.
    pub fn new([base, digits, depth]: [u64; 3], ids: &[u32]) -> Whole {
        let settings = Settings::new(base, digits, depth).expect("in range");
        let mut whole = Whole {
            settings,
            ids: ids.to_vec(),
            records: vec![],
        };
        let (base, digits) = (base as u8, digits as u8);
        let entries = (0..digits).flat_map(|level| (0..base).map(move |digit| (level, digit)));
        for node in 1..=ids.len() as u8 {
            for (level, digit) in entries.clone() {
                let mut near = whole.qualified([node, level, digit]);
                near.sort_by_key(|&other| other != node);
                let slots = near.into_iter().take(settings.depth());
                let records = slots.map(|near| [node, level, digit, near]);
                whole.records.extend(records);
            }
        }
        whole
    }

    /// The nodes that qualify for an entry (node, level, digit), rising.
    pub fn qualified(&self, [node, level, digit]: [u8; 3]) -> Vec<u8> {
        let owner = self.ids[usize::from(node) - 1];
        let settings = self.settings;
        let may = |id: u32| settings.qualified(id, owner, level.into(), digit.into());
        let nodes = (1..).zip(&self.ids).filter(|(_, &id)| may(id));
        nodes.map(|(node, _)| node).collect()
    }

    /// Does the record stand in an own entry of its node?
    pub fn is_own(&self, [node, level, wanted, _]: [u8; 4]) -> bool {
        let id = self.ids[usize::from(node) - 1];
        digit(id, level.into()) == wanted.into()
    }

    /// The image with these records.
    pub fn holding(&self, records: Vec<[u8; 4]>) -> Edited {
        let settings = self.settings;
        let numbers = [settings.base(), settings.digits(), settings.depth()];
        let head = head(numbers.map(|number| number as u8), &self.ids);
        Edited { head, records }
    }
}
