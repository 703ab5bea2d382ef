//! Settings, ids and node numbers, good and bad.

use super::Rng;
use crate::second::network::Network;
use crate::second::Settings;

/// All settings, small ones more often: there tables fill and joins meet.
pub fn settings(rng: &mut Rng) -> Settings {
    let (base, digits, depth) = match rng.below(4) {
        0 => (2, rng.between(1, 4), rng.between(1, 2)),
        1 => (rng.between(2, 4), rng.between(1, 4), rng.between(1, 4)),
        _ => (rng.between(2, 16), rng.between(1, 8), rng.between(1, 4)),
    };
    Settings::new(base, digits, depth).expect("in range")
}

/// Any valid id.
pub fn id(rng: &mut Rng, settings: Settings) -> u32 {
    above_suffix(rng, settings, 0, 0)
}

/// A valid id with the low `level` digits of `suffix` and any digits above.
fn above_suffix(rng: &mut Rng, settings: Settings, suffix: u32, level: usize) -> u32 {
    let low = suffix & (1_u64 << (4 * level)).wrapping_sub(1) as u32;
    (level..settings.digits()).fold(low, |id, level| {
        id | (rng.below(settings.base()) as u32) << (4 * level)
    })
}

/// A valid id that no node has, often with a suffix of one that has; None if none was found soon.
pub fn fresh_id(rng: &mut Rng, network: &Network) -> Option<u32> {
    let settings = network.settings;
    (0..50)
        .map(|_| {
            let near = network.node(1 + rng.below(network.count())).id;
            let level = rng.below(settings.digits());
            let level = if rng.once_in(2) { 0 } else { level };
            above_suffix(rng, settings, near, level)
        })
        .find(|&id| network.iter().all(|(_, node)| node.id != id))
}

/// Every valid id, rising.
pub fn all_ids(settings: Settings) -> impl Iterator<Item = u32> {
    let (base, digits) = (settings.base() as u64, settings.digits() as u32);
    (0..base.pow(digits)).map(move |number| {
        let digit = |level| (number / base.pow(level) % base) as u32;
        (0..digits).fold(0, |id, level| id | digit(level) << (4 * level))
    })
}

/// Those that no node has, rising.
pub fn free_ids(network: &Network) -> impl Iterator<Item = u32> + '_ {
    let is_free = |id: &u32| network.iter().all(|(_, node)| node.id != *id);
    all_ids(network.settings).filter(is_free)
}

/// A valid id that no node has, as `fresh_id`; any of the few that are left where it finds none.
pub fn free_id(rng: &mut Rng, network: &Network) -> Option<u32> {
    fresh_id(rng, network).or_else(|| {
        let left: Vec<u32> = free_ids(network).collect();
        (!left.is_empty()).then(|| rng.pick(&left))
    })
}

/// An id with a digit too large or a bit above its digits, if the settings leave room for one.
pub fn bad_id(rng: &mut Rng, settings: Settings) -> Option<u32> {
    (0..50)
        .map(|_| id(rng, settings) ^ (1 << rng.below(32)))
        .find(|&id| !settings.valid(id))
}

/// A number that no node has; some look like a node's when cut to fewer bits.
pub fn bad_number(rng: &mut Rng, count: usize) -> u64 {
    let past = count as u64 + 1;
    rng.pick(&[
        0,
        past,
        65,
        257,
        (1 << 32) + 1,
        1 << 63,
        (1 << 63) + 1,
        u64::MAX,
    ])
}
