//! Filling as document 02 reads, step by step: slow, and without looking ahead.

use crate::lent::Lent;
use crate::plain::plain_sound;
use crate::second::memory::{State, Tables, STATE_WORDS, TABLE_BYTES};

/// An entry: node, level and digit.
type Place = [usize; 3];

/// What a filling must answer, list and leave of the tables. A refused one lists nothing and leaves them.
pub struct Filled {
    pub answer: u64,
    pub list: Vec<[u8; 4]>,
    pub tables: Box<Tables>,
}

/// Of any memory, lent as it says.
pub fn filled(before: &Lent) -> Filled {
    let (state, tables) = (before.used_state(), before.used_tables());
    let joining = |node: usize| state[8 * node + 1] != 0;
    let refused = |answer| Filled {
        answer,
        list: vec![],
        tables: Box::new(*tables),
    };
    if before.lend.state < STATE_WORDS || before.lend.tables < TABLE_BYTES {
        return refused(1);
    }
    if !plain_sound(state, tables) {
        return refused(2);
    }
    if (1..=state[3] as usize).any(joining) {
        return refused(15);
    }
    match fill(state, tables) {
        filled if before.lend.out < 4 * filled.list.len() => refused(16),
        filled => filled,
    }
}

/// A sound state in which all are settled.
fn fill(state: &State, tables: &Tables) -> Filled {
    let mut tables = Box::new(*tables);
    let mut list = vec![];
    for place in places(state) {
        while held(&tables, place).len() < must_hold(state, place) {
            let near = lowest_absent(state, &tables, place);
            append(&mut tables, place, near);
            let [node, level, digit] = place.map(|part| part as u8);
            list.push([node, level, digit, near]);
        }
    }
    Filled {
        answer: (list.len() as u64) << 8,
        list,
        tables,
    }
}

/// Every entry in image order.
fn places(state: &State) -> impl Iterator<Item = Place> {
    let [base, digits, _, nodes] = [0, 1, 2, 3].map(|word| state[word] as usize);
    let levels = move |node| (0..digits).map(move |level| [node, level]);
    let entries = move |[node, level]: [usize; 2]| (0..base).map(move |digit| [node, level, digit]);
    (1..=nodes).flat_map(levels).flat_map(entries)
}

/// min(K, H), H with the owner.
fn must_hold(state: &State, place: Place) -> usize {
    let nodes = 1..=state[3] as u8;
    let qualified = nodes.filter(|&near| is_qualified(state, place, near));
    qualified.count().min(state[2] as usize)
}

fn is_qualified(state: &State, [node, level, digit]: Place, near: u8) -> bool {
    let digit_of = |node: usize, level: usize| state[8 * node] >> (4 * level) & 15;
    let near = usize::from(near);
    let shares = (0..level).all(|low| digit_of(near, low) == digit_of(node, low));
    shares && digit_of(near, level) == digit as u64
}

fn first_slot([node, level, digit]: Place) -> usize {
    512 * (node - 1) + 64 * level + 4 * digit
}

/// Who stands in an entry.
fn held(tables: &Tables, place: Place) -> Vec<u8> {
    let slots = &tables[first_slot(place)..][..4];
    slots.iter().copied().filter(|&slot| slot != 0).collect()
}

fn lowest_absent(state: &State, tables: &Tables, place: Place) -> u8 {
    let held = held(tables, place);
    let mut absent = (1..=64).filter(|near| !held.contains(near));
    let lowest = absent.find(|&near| is_qualified(state, place, near));
    lowest.expect("a short entry lacks somebody")
}

fn append(tables: &mut Tables, place: Place, near: u8) {
    let end = first_slot(place) + held(tables, place).len();
    tables[end] = near;
}
