//! The 64th node joins a network of 63 that passes the verdict, by any of them and with any id.

use std::collections::BTreeMap;

use super::networks::Origin;
use super::steps::{join_alone, some_beginning};
use super::{Bound, Expected};
use crate::compare::Pair;
use crate::engine::Engine;
use crate::random::{seeds, Rng};

/// Base and digits. With base 2 and 6 digits, or base 4 and 3, one id is left.
const SETTINGS: [[u64; 2]; 8] = [
    [2, 8],
    [16, 2],
    [4, 4],
    [2, 6],
    [4, 3],
    [3, 5],
    [16, 8],
    [8, 2],
];
const JOINS: usize = 6;

/// The join of each settings and depth that took most deliveries.
pub type Longest = BTreeMap<[u64; 3], Expected>;

pub fn last(a: &dyn Engine, b: &dyn Engine, bound: Bound) -> Result<Longest, String> {
    let mut longest = Longest::new();
    let settings = SETTINGS
        .into_iter()
        .flat_map(|[base, digits]| [1, 2, 3, 4].map(|depth| [base, digits, depth]));
    for (seed, settings) in seeds(5_000, 32).zip(settings.cycle()) {
        let rng = &mut Rng::new(seed);
        let origin = rng.pick(&Origin::ALL);
        let network = origin.network(rng, settings, 63);
        let mut pair = Pair::new(a, b);
        for _ in 0..JOINS {
            pair.restore(&network.state, &network.tables);
            let beginning = some_beginning(rng, &pair).expect("an id is left");
            let joined = join_alone(&mut pair, rng, beginning, bound);
            let case = format!("seed {seed}, {settings:?}, {origin:?}, {beginning:x?}");
            let joined = joined.map_err(|what| format!("{case}: {what}"))?;
            let most = longest.entry(settings).or_insert(joined);
            if joined.deliveries() > most.deliveries() {
                *most = joined;
            }
        }
    }
    Ok(longest)
}
