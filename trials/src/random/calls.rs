//! One call of each kind that judges the state first.

use super::{bad_number, failed_set, fresh_id, trace_file, Rng};
use crate::script::Call;
use crate::second::network::Network;

/// Arguments mostly good, now and then a bad number. The withdrawal is often of the node that the beginning before it has made.
pub fn judging_calls(rng: &mut Rng, network: &Network) -> [Call; 10] {
    let count = network.count();
    let node = |rng: &mut Rng| match rng.below(8) {
        0 => bad_number(rng, count),
        _ => rng.between(1, count as u64),
    };
    let (sender, receiver) = match request(rng, network) {
        Some((sender, receiver)) => (sender as u64, receiver as u64),
        None => (node(rng), node(rng)),
    };
    let version = rng.pick(&[1, 1, 2, 2, 2, 0, 3]);
    let highest = count as u64;
    let withdrawn = [highest, highest, highest + 1, highest + 1, node(rng)];
    [
        Call::Sound,
        Call::Survey {
            failed: failed_set(rng, count),
        },
        Call::Verdict,
        Call::Write { version },
        Call::Fill,
        Call::Lookup {
            from: node(rng),
            to: node(rng),
            failed: failed_set(rng, count),
        },
        Call::Trace {
            trace: short_trace(rng, node),
        },
        Call::Deliver { sender, receiver },
        Call::Begin {
            id: fresh_id(rng, network).unwrap_or(0),
            gateway: node(rng),
        },
        Call::Withdraw {
            node: rng.pick(&withdrawn),
        },
    ]
}

/// One that is outstanding, if there is any.
fn request(rng: &mut Rng, network: &Network) -> Option<(usize, usize)> {
    let outstanding = network.outstanding();
    (!outstanding.is_empty()).then(|| rng.pick(&outstanding))
}

/// No paths, or one of a node and one of up to three.
fn short_trace(rng: &mut Rng, node: impl Fn(&mut Rng) -> u64) -> Vec<u8> {
    let path = |rng: &mut Rng, length| (0..length).map(|_| node(rng) as u8).collect();
    match rng.below(4) {
        0 => trace_file(&[]),
        length => trace_file(&[path(rng, 1), path(rng, length)]),
    }
}
