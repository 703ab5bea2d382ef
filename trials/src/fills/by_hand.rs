//! Networks with the lists of their fillings, worked out by hand.

use super::expected::with_additions;
use super::steps::{expect_kept, fill, image, restored};
use crate::by_hand;
use crate::compare::Pair;
use crate::engine::{Engine, Second};
use crate::lent::Lent;
use crate::paper::{e1_short, E1};
use crate::records::{networks, Whole};
use crate::script::Call;

/// The depth, what nodes 00, 10, 01 and 11 of base 2 know beside themselves, and the list.
type Case = (u8, &'static [[u8; 4]], &'static [[u8; 4]]);

#[rustfmt::skip]
const OF_FOUR: [Case; 6] = [
    (1, &[], &[
        [1, 0, 1, 3], [1, 1, 1, 2], [2, 0, 1, 3], [2, 1, 0, 1], [3, 0, 0, 1], [3, 1, 1, 4], [4, 0, 0, 1], [4, 1, 0, 3],
    ]),
    (2, &[], &[
        [1, 0, 0, 2], [1, 0, 1, 3], [1, 0, 1, 4], [1, 1, 1, 2],
        [2, 0, 0, 1], [2, 0, 1, 3], [2, 0, 1, 4], [2, 1, 0, 1],
        [3, 0, 0, 1], [3, 0, 0, 2], [3, 0, 1, 4], [3, 1, 1, 4],
        [4, 0, 0, 1], [4, 0, 0, 2], [4, 0, 1, 3], [4, 1, 0, 3],
    ]),
    // The higher of two is there, and the lower goes behind it; with a depth of 1 it does not.
    (2, &[[1, 0, 0, 2], [1, 0, 1, 4], [1, 1, 1, 2], [2, 0, 0, 1], [2, 0, 1, 3], [2, 0, 1, 4], [2, 1, 0, 1], [3, 0, 0, 1], [3, 0, 0, 2], [3, 0, 1, 4],
          [3, 1, 1, 4], [4, 0, 0, 2], [4, 0, 1, 3], [4, 1, 0, 3]],
        &[[1, 0, 1, 3], [4, 0, 0, 1]]),
    (1, &[[1, 0, 1, 4], [1, 1, 1, 2], [2, 0, 1, 4], [2, 1, 0, 1], [3, 0, 0, 2], [3, 1, 1, 4], [4, 0, 0, 2]], &[[4, 1, 0, 3]]),
    // Two qualify, so that two are enough for any depth.
    (3, &[[1, 0, 0, 2], [1, 0, 1, 3], [1, 0, 1, 4], [1, 1, 1, 2], [2, 0, 0, 1], [2, 0, 1, 3], [2, 0, 1, 4], [2, 1, 0, 1], [3, 0, 0, 1], [3, 0, 0, 2],
          [3, 0, 1, 4], [3, 1, 1, 4], [4, 0, 0, 1], [4, 0, 0, 2], [4, 0, 1, 3]],
        &[[4, 1, 0, 3]]),
    (4, &[[1, 0, 0, 2], [1, 0, 1, 3], [1, 0, 1, 4], [1, 1, 1, 2], [2, 0, 0, 1], [2, 0, 1, 3], [2, 0, 1, 4], [2, 1, 0, 1], [3, 0, 0, 1], [3, 0, 0, 2],
          [3, 0, 1, 4], [3, 1, 1, 4], [4, 0, 0, 1], [4, 0, 0, 2], [4, 0, 1, 3], [4, 1, 0, 3]],
        &[]),
];

pub fn by_hand(a: &dyn Engine, b: &dyn Engine) -> Result<(), String> {
    let pair = &mut Pair::new(a, b);
    is_filled(pair, &e1_short(), &[[1, 0, 1, 2]])?;
    if image(pair, 1)? != E1 {
        return Err("short E1 is not filled to E1".into());
    }
    for (depth, more, list) in OF_FOUR {
        let four = by_hand::image([2, 2, depth], &[0x00, 0x10, 0x01, 0x11], more);
        is_filled(pair, &four, list)?;
    }
    networks()
        .iter()
        .try_for_each(|whole| alone_is_filled(pair, whole))
}

/// Nodes that know only themselves come to the image in which each entry has the first that qualify, the owner before them.
fn alone_is_filled(pair: &mut Pair, whole: &Whole) -> Result<(), String> {
    let settings = whole.settings;
    let numbers = [settings.base(), settings.digits(), settings.depth()];
    let alone = by_hand::image(numbers.map(|number| number as u8), &whole.ids, &[]);
    let mut list = whole.records.clone();
    list.retain(|[node, _, _, near]| node != near);
    is_filled(pair, &alone, &list)?;
    match image(pair, 1)? == whole.holding(whole.records.clone()).image() {
        true => Ok(()),
        false => Err(format!("{settings:?} alone is not filled to the whole")),
    }
}

/// Once it has this list, and then none; each record is at the end of its entry.
fn is_filled(pair: &mut Pair, short: &[u8], list: &[[u8; 4]]) -> Result<(), String> {
    let mut memory = Lent::noise();
    memory.call(
        &Second,
        &Call::Read {
            image: short.to_vec(),
        },
    );
    restored(pair, &memory)?;
    let found = fill(pair)?;
    if found != list || image(pair, 1)? != with_additions(short, list) {
        return Err(format!("{short:?} is filled with {found:?}, not {list:?}"));
    }
    expect_kept(pair, Call::Fill, 0)
}
