//! Writes the image of a sample to standard output: `cargo run --release --example sample depth3 > ../samples/depth3.image`.
//!
//! - `network64`: 64 nodes that joined with many joins in flight.
//! - `depth3`: 24 nodes with entries of up to three, that joined one after another; any two of them may fail.

use std::io::Write;
use std::{env, io};

use trials::engine::{Engine, Second};
use trials::failures::joined;
use trials::lent::Lent;
use trials::random::{fresh_id, Rng};
use trials::script::Call;
use trials::second::network::Network;

fn network64() -> Lent {
    let mut rng = Rng::new(64);
    let mut memory = Lent::noise();
    memory.call(
        &Second,
        &Call::Found {
            settings: [16, 8, 4],
            id: 0x2026_1115,
        },
    );
    loop {
        let network = Network::decode(memory.used_state());
        let outstanding = network.outstanding();
        if network.count() < 64 && (outstanding.is_empty() || rng.below(8) == 0) {
            let id = fresh_id(&mut rng, &network).expect("there are more ids than nodes");
            memory.call(&Second, &Call::Begin { id, gateway: 1 });
        } else if outstanding.is_empty() {
            return memory;
        } else {
            let (sender, receiver) = rng.pick(&outstanding);
            memory.call(
                &Second,
                &Call::Deliver {
                    sender: sender as u64,
                    receiver: receiver as u64,
                },
            );
        }
    }
}

fn depth3() -> Lent {
    joined(&mut Rng::new(1), [4, 4, 3], 24)
}

fn main() {
    let name = env::args().nth(1);
    let mut memory = match name.as_deref() {
        Some("network64") => network64(),
        Some("depth3") => depth3(),
        _ => panic!("which sample: network64 or depth3?"),
    };
    let mut image = vec![0; 65536];
    let answer = Second.write(&mut memory.state, &mut memory.tables, 1, &mut image);
    assert_eq!(answer & 0xff, 0);
    io::stdout()
        .write_all(&image[..(answer >> 8) as usize])
        .unwrap();
}
