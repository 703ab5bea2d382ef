//! What one failure costs in hops, by the proved engine: `cargo run --release --example failures ../samples/network64.image`.
//!
//! Four lines: nobody has failed; each node alone has, all together, in which every pair counts once for each other node; the node whose failure costs
//! most has, in lost pairs or else in the mean of the hops; and the pairs of that line while nobody has failed. The mean is over the pairs that arrive.

use std::{env, fs};

use trials::archive::Archive;
use trials::failures::{cost, mean};
use trials::lent::Lent;
use trials::script::Call;
use trials::second::memory::DIGITS;
use trials::second::{Counts, LOST};

fn print(name: &str, digits: usize, counts: &Counts) {
    let pairs: u64 = counts.iter().sum();
    let hops = counts[..digits].iter();
    let hops: String = hops.map(|count| format!(" {count:>8}")).collect();
    let (lost, mean) = (counts[LOST], mean(counts));
    println!("{name:<12} {pairs:>8}{hops} {lost:>8} {mean:>8.4}");
}

fn main() {
    let path = env::args().nth(1).expect("the path of an image");
    let image = fs::read(path).expect("the image can be read");
    let mut memory = Lent::noise();
    assert_eq!(memory.call(&Archive, &Call::Read { image }), 0);
    let digits = memory.state[DIGITS] as usize;
    let cost = cost(&Archive, &mut memory);

    let hops: String = (1..=digits).map(|hops| format!("   hops {hops}")).collect();
    println!(
        "{:<12} {:>8}{hops} {:>8} {:>8}",
        "failed", "pairs", "lost", "mean"
    );
    print("none", digits, &cost.none);
    print("each alone", digits, &cost.alone);
    let worst = cost.worst;
    print(&format!("node {}", worst.node), digits, &worst.after);
    print("none, same", digits, &worst.before);
}
