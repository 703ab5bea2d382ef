//! Which seeds a trial goes through.

use std::env;
use std::ops::Range;

/// So many seeds from the first on. For longer or other runs, by the environment: TRIALS_COUNT times as many, and each
/// TRIALS_SEED higher.
pub fn seeds(first: u64, count: u64) -> Range<u64> {
    let first = first + number("TRIALS_SEED", 0);
    first..first + count * number("TRIALS_COUNT", 1)
}

fn number(name: &str, otherwise: u64) -> u64 {
    let Ok(text) = env::var(name) else {
        return otherwise;
    };
    let number = text.parse();
    number.unwrap_or_else(|_| panic!("{name}={text} is no number"))
}
