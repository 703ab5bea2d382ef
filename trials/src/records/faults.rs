//! One fault at a record of a right image.

use super::edited::{DIGIT, LEVEL, NEIGHBOR, NODE};
use super::Whole;

/// What may be wrong with a record, or with an own entry.
#[derive(Clone, Copy, Debug, PartialEq, Eq)]
pub enum Cause {
    NoSuchNode,
    Level,
    Digit,
    BelowByNode,
    BelowByLevel,
    BelowByDigit,
    NotQualified,
    Repeated,
    OverDepth,
    OtherFirst,
    Absent,
}

impl Cause {
    pub const ALL: [Cause; 11] = [
        Cause::NoSuchNode,
        Cause::Level,
        Cause::Digit,
        Cause::BelowByNode,
        Cause::BelowByLevel,
        Cause::BelowByDigit,
        Cause::NotQualified,
        Cause::Repeated,
        Cause::OverDepth,
        Cause::OtherFirst,
        Cause::Absent,
    ];

    pub fn refusal(self) -> u8 {
        match self {
            Cause::NoSuchNode => 9,
            Cause::Level | Cause::Digit => 10,
            Cause::BelowByNode | Cause::BelowByLevel | Cause::BelowByDigit => 10,
            Cause::NotQualified | Cause::Repeated | Cause::OverDepth => 17,
            Cause::OtherFirst | Cause::Absent => 18,
        }
    }
}

/// A record, and what is wrong with it.
#[derive(Clone, Copy)]
pub struct Marked {
    pub bytes: [u8; 4],
    pub cause: Option<Cause>,
}

impl Marked {
    pub fn right(bytes: [u8; 4]) -> Marked {
        Marked { bytes, cause: None }
    }
}

/// What comes in the place of some records.
pub struct Fault {
    pub cause: Cause,
    /// The first of them, counted from 0, and how many they are.
    pub from: usize,
    pub records: usize,
    pub instead: Vec<Marked>,
}

impl Fault {
    /// None where the record cannot have such a fault.
    pub fn new(whole: &Whole, cause: Cause, at: usize) -> Option<Fault> {
        let good = whole.records[at];
        match cause {
            Cause::NoSuchNode | Cause::Level | Cause::Digit => {
                Some(changed(cause, at, out_of_range(whole, cause, at)))
            }
            Cause::BelowByNode | Cause::BelowByLevel | Cause::BelowByDigit => {
                Some(followed(cause, at, good, below(whole, cause, good)?))
            }
            Cause::NotQualified => Some(changed(cause, at, not_qualified(whole, good)?)),
            Cause::Repeated => Some(followed(cause, at, good, good)),
            Cause::OverDepth => Some(followed(cause, at, good, over_depth(whole, at)?)),
            Cause::OtherFirst => other_first(whole, at),
            Cause::Absent => absent(whole, at),
        }
    }
}

/// The record at its place is another, which is bad.
fn changed(cause: Cause, at: usize, bad: [u8; 4]) -> Fault {
    replaced(cause, at, 1, vec![marked(cause, bad)])
}

/// A bad record stands behind it.
fn followed(cause: Cause, at: usize, good: [u8; 4], bad: [u8; 4]) -> Fault {
    let instead = vec![Marked::right(good), marked(cause, bad)];
    replaced(cause, at, 1, instead)
}

fn replaced(cause: Cause, from: usize, records: usize, instead: Vec<Marked>) -> Fault {
    Fault {
        cause,
        from,
        records,
        instead,
    }
}

fn marked(cause: Cause, bytes: [u8; 4]) -> Marked {
    let cause = Some(cause);
    Marked { bytes, cause }
}

/// One byte just past its range or far past it, in turn.
fn out_of_range(whole: &Whole, cause: Cause, at: usize) -> [u8; 4] {
    let near = at.is_multiple_of(2);
    let (byte, value) = match cause {
        Cause::NoSuchNode if near => (NEIGHBOR, whole.ids.len() as u8 + 1),
        Cause::NoSuchNode => (NODE, 0),
        Cause::Level if near => (LEVEL, whole.settings.digits() as u8),
        Cause::Level => (LEVEL, 255),
        _ if near => (DIGIT, whole.settings.base() as u8),
        _ => (DIGIT, 255),
    };
    let mut record = whole.records[at];
    record[byte] = value;
    record
}

/// A record that is below this one by its node, its level or its digit alone: what counts for less is as high as it can be.
fn below(whole: &Whole, cause: Cause, [node, level, digit, _]: [u8; 4]) -> Option<[u8; 4]> {
    let (settings, most) = (whole.settings, whole.ids.len() as u8);
    let (last_level, last_digit) = (settings.digits() as u8 - 1, settings.base() as u8 - 1);
    match cause {
        Cause::BelowByNode if node > 1 => Some([node - 1, last_level, last_digit, most]),
        Cause::BelowByLevel if level > 0 => Some([node, level - 1, last_digit, most]),
        Cause::BelowByDigit if digit > 0 => Some([node, level, digit - 1, most]),
        _ => None,
    }
}

fn not_qualified(whole: &Whole, [node, level, digit, _]: [u8; 4]) -> Option<[u8; 4]> {
    let qualified = whole.qualified([node, level, digit]);
    let mut nodes = 1..=whole.ids.len() as u8;
    let other = nodes.find(|near| !qualified.contains(near))?;
    Some([node, level, digit, other])
}

/// One more that qualifies, behind the last of a full entry.
fn over_depth(whole: &Whole, at: usize) -> Option<[u8; 4]> {
    let [node, level, digit, _] = whole.records[at];
    let (from, count) = entry_at(whole, at);
    let last_of_full = at + 1 == from + count && count == whole.settings.depth();
    let other = one_more(whole, at).filter(|_| last_of_full)?;
    Some([node, level, digit, other])
}

/// The owner of an own entry exchanged with the second there, or another in its place.
fn other_first(whole: &Whole, at: usize) -> Option<Fault> {
    let (from, count) = own_entry_from(whole, at)?;
    let owner = whole.records[from];
    let cause = Cause::OtherFirst;
    if count > 1 {
        let instead = vec![marked(cause, whole.records[from + 1]), Marked::right(owner)];
        return Some(replaced(cause, from, 2, instead));
    }
    let [node, level, digit, _] = owner;
    let other = one_more(whole, at)?;
    Some(changed(cause, from, [node, level, digit, other]))
}

/// An own entry without its records.
fn absent(whole: &Whole, at: usize) -> Option<Fault> {
    let (from, count) = own_entry_from(whole, at)?;
    Some(replaced(Cause::Absent, from, count, vec![]))
}

/// The own entry that begins with this record, if one does.
fn own_entry_from(whole: &Whole, at: usize) -> Option<(usize, usize)> {
    let entry = entry_at(whole, at);
    let begins = entry.0 == at && whole.is_own(whole.records[at]);
    begins.then_some(entry)
}

/// Where the entry of a record begins, and how many it holds.
fn entry_at(whole: &Whole, at: usize) -> (usize, usize) {
    let same = |record: &[u8; 4]| record[..3] == whole.records[at][..3];
    let from = whole.records.iter().position(same).expect("it is there");
    let in_it = whole.records[from..]
        .iter()
        .take_while(|&record| same(record));
    (from, in_it.count())
}

/// A node that qualifies for the entry of a record and is not in it.
fn one_more(whole: &Whole, at: usize) -> Option<u8> {
    let [node, level, digit, _] = whole.records[at];
    let qualified = whole.qualified([node, level, digit]);
    let absent = |&near: &u8| !whole.records.contains(&[node, level, digit, near]);
    qualified.into_iter().find(absent)
}
