//! How often several joins at once end short of the verdict, by the second engine: `cargo run --release --example at_once 100000` plays so many runs of each
//! kind. The kinds are those of `trials::one_join::AtOnce`, and `trials::one_join::stalled`.

use std::env;

use trials::one_join::{stalled, AtOnce};

/// Settings, how many nodes there are at the end, and the pace.
const KINDS: [([u64; 3], usize, usize); 10] = [
    ([3, 4, 2], 10, 1),
    ([3, 4, 2], 10, 2),
    ([3, 4, 2], 10, 4),
    ([3, 4, 2], 20, 2),
    ([2, 4, 2], 10, 2),
    ([4, 4, 1], 10, 2),
    ([4, 4, 2], 10, 2),
    ([4, 4, 3], 10, 2),
    ([4, 4, 4], 10, 2),
    ([16, 8, 4], 10, 2),
];

/// How many of these runs do not end whole, and the first seed of one.
fn print(name: String, runs: u64, ends_whole: impl Fn(u64) -> bool) {
    let short: Vec<u64> = (0..runs).filter(|&seed| !ends_whole(seed)).collect();
    let first = short.first().map_or("none".to_string(), u64::to_string);
    println!(
        "{name:<32} {:>8} of {runs} short, first seed {first}",
        short.len()
    );
}

fn main() {
    let runs = env::args().nth(1).map(|text| text.parse());
    let runs = runs.expect("how many runs").expect("a number of runs");
    for (settings, nodes, pace) in KINDS {
        let kind = AtOnce {
            settings,
            nodes,
            pace,
        };
        let name = format!("{settings:?}, {nodes} nodes, pace {pace}");
        print(name, runs, |seed| kind.ends_whole(seed));
    }
    print("the sample's nodes".to_string(), runs, stalled);
}
