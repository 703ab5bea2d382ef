//! Founding, on memory of any length and with any numbers.

use trials::archive::Archive;
use trials::compare::Pair;
use trials::engine::Second;
use trials::lent::ALL;
use trials::random::{bad_id, bad_number, id, seeds, settings, Rng};
use trials::script::{Call, Lend, Line};

use crate::support::lent_lengths;

/// Settings and an id: mostly good, else one of them bad.
fn arguments(rng: &mut Rng) -> ([u64; 3], u32) {
    let good = settings(rng);
    let mut numbers = [
        good.base() as u64,
        good.digits() as u64,
        good.depth() as u64,
    ];
    let id = id(rng, good);
    match rng.below(4) {
        0 => {
            let which = rng.below(3);
            numbers[which] = bad_number(rng, 16);
            (numbers, id)
        }
        1 => (numbers, bad_id(rng, good).unwrap_or(id)),
        _ => (numbers, id),
    }
}

#[test]
fn founding_agrees_in_every_byte() {
    let mut refused = 0;
    for seed in seeds(0, 4_000) {
        let mut rng = Rng::new(seed);
        let (state, tables) = lent_lengths(&mut rng);
        let (settings, id) = arguments(&mut rng);
        let mut pair = Pair::new(&Archive, &Second);
        let lend = Line::Lend(Lend {
            state,
            tables,
            ..ALL
        });
        let found = Line::Call(Call::Found { settings, id });
        let answer = pair.obey(&lend).and_then(|_| pair.obey(&found));
        let answer = answer.unwrap_or_else(|what| panic!("seed {seed}\n{lend}\n{found}\n{what}"));
        refused += usize::from(answer != 0);
    }
    assert!(refused > 400, "only {refused} refused");
}
