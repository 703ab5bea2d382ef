//! Every table that the nodes of small networks may have: in each entry any that qualify, in any order, behind an owner where it is its own.

use super::steps::{expect_kept, fill, meet_additions, restored};
use crate::compare::Pair;
use crate::engine::{Engine, Second};
use crate::lent::Lent;
use crate::met::Met;
use crate::records::Whole;
use crate::script::Call;

const NETWORKS: [([u64; 3], &[u32]); 4] = [
    ([2, 2, 2], &[0x00, 0x10, 0x01]),
    ([2, 2, 1], &[0x00, 0x10, 0x01, 0x11]),
    ([2, 2, 3], &[0x00, 0x10, 0x01]),
    ([3, 1, 2], &[2, 0, 1]),
];

/// An entry, and what may stand in it.
struct Choice {
    place: [u8; 3],
    lists: Vec<Vec<u8>>,
}

pub fn every_table(a: &dyn Engine, b: &dyn Engine) -> Result<Met, String> {
    let mut met = Met::new();
    for (settings, ids) in NETWORKS {
        let whole = Whole::new(settings, ids);
        let choices = choices(&whole);
        let all: usize = choices.iter().map(|choice| choice.lists.len()).product();
        let (pair, memory) = (&mut Pair::new(a, b), &mut Lent::noise());
        for number in 0..all {
            let image = whole.holding(chosen(&choices, number)).image();
            let is_right = is_filled(pair, memory, image, &mut met);
            is_right.map_err(|what| format!("{settings:?}, {number} of {all}: {what}"))?;
        }
    }
    Ok(met)
}

fn is_filled(
    pair: &mut Pair,
    memory: &mut Lent,
    image: Vec<u8>,
    met: &mut Met,
) -> Result<(), String> {
    memory.call(&Second, &Call::Read { image });
    restored(pair, memory)?;
    meet_additions(met, fill(pair)?.len());
    expect_kept(pair, Call::Fill, 0)
}

/// Of every entry for which somebody qualifies, in image order.
fn choices(whole: &Whole) -> Vec<Choice> {
    let mut places: Vec<[u8; 3]> = whole
        .records
        .iter()
        .map(|&[n, l, d, _]| [n, l, d])
        .collect();
    places.dedup();
    let choice = |place: [u8; 3]| {
        let [node, ..] = place;
        let mut others = whole.qualified(place);
        let qualified = others.len();
        others.retain(|&near| near != node);
        let own = &[node][..qualified - others.len()];
        let lists = lists(&others, whole.settings.depth() - own.len());
        let lists = lists.into_iter().map(|list| [own, &list].concat());
        let lists = lists.collect();
        Choice { place, lists }
    };
    places.into_iter().map(choice).collect()
}

/// At most so many of these, in any order.
fn lists(from: &[u8], most: usize) -> Vec<Vec<u8>> {
    let mut all = vec![vec![]];
    for &first in from.iter().filter(|_| most > 0) {
        let rest: Vec<u8> = from.iter().copied().filter(|&near| near != first).collect();
        let behind = lists(&rest, most - 1).into_iter();
        all.extend(behind.map(|list| [vec![first], list].concat()));
    }
    all
}

/// The records of the choice of this number.
fn chosen(choices: &[Choice], mut number: usize) -> Vec<[u8; 4]> {
    let mut records = vec![];
    for Choice { place, lists } in choices {
        let [node, level, digit] = *place;
        let list = &lists[number % lists.len()];
        records.extend(list.iter().map(|&near| [node, level, digit, near]));
        number /= lists.len();
    }
    records
}
