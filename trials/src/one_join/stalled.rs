//! Several joins at once that end short of the verdict: the sample, and runs of its nodes that now and then do.

use std::fs;

use super::networks::CONSISTENT;
use crate::compare::Pair;
use crate::engine::{Engine, Second};
use crate::lent::Lent;
use crate::random::Rng;
use crate::script::{Call, Script};
use crate::second::network::Network;
use crate::steps::{call, network};

/// Calls on ten nodes. Nodes 5, 6 and 7 stall once they have attached, and go on when all others have settled.
const SAMPLE: &str = concat!(
    env!("CARGO_MANIFEST_DIR"),
    "/../samples/concurrent-joins.script"
);

/// Where they end.
const IMAGE: &str = concat!(
    env!("CARGO_MANIFEST_DIR"),
    "/../samples/concurrent-joins.image"
);

/// The nodes of the sample.
const SETTINGS: [u64; 3] = [3, 4, 2];
const IDS: [u32; 10] = [
    0x0221, 0x0201, 0x1002, 0x0210, 0x0010, 0x1100, 0x2100, 0x0100, 0x2000, 0x0200,
];
const STALLED: [usize; 3] = [5, 6, 7];

/// Its lines.
pub fn sample_script() -> Result<Script, String> {
    let text = fs::read_to_string(SAMPLE).map_err(|error| format!("{SAMPLE}: {error}"))?;
    let lines = text.lines().filter(|line| !line.starts_with('#'));
    lines.collect::<Vec<_>>().join("\n").parse()
}

/// No call of the sample is refused, each node settles, and the image is the sample's; these are the answers of its last two lines, a verdict and a lookup.
pub fn sample(a: &dyn Engine, b: &dyn Engine) -> Result<[u64; 2], String> {
    let mut pair = Pair::new(a, b);
    let mut answers = [0; 2];
    for line in &sample_script()?.lines {
        let answer = pair.obey(line).map_err(|what| format!("{line}: {what}"))?;
        if answer & 0xff != 0 {
            return Err(format!("{line}: refused, {answer:#x}"));
        }
        answers = [answers[1], answer];
    }
    let network = network(&pair);
    let ids = network.iter().map(|(_, node)| node.id);
    if !network.all_in_system() || !ids.eq(IDS) {
        return Err(format!("ends with {network:?}"));
    }
    let image = fs::read(IMAGE).map_err(|error| format!("{IMAGE}: {error}"))?;
    let length = call(&mut pair, Call::WRITE_1)? >> 8;
    if pair.memory().out[..length as usize] != image {
        return Err(format!("{IMAGE} is another image"));
    }
    Ok(answers)
}

/// The nodes of the sample in its order, each by any node in system, one after another but for those that stall and those that wait for one of these; with
/// their deliveries in any order. Does the verdict pass at the end?
pub fn stalled(seed: u64) -> bool {
    let rng = &mut Rng::new(seed);
    let (settings, [id, ids @ ..]) = (SETTINGS, IDS);
    let mut memory = Lent::noise();
    memory.call(&Second, &Call::Found { settings, id });
    for id in ids {
        let network = Network::decode(memory.used_state());
        let gateways = network.iter().filter(|(_, node)| node.in_system());
        let gateways: Vec<usize> = gateways.map(|(number, _)| number).collect();
        let gateway = rng.pick(&gateways) as u64;
        memory.call(&Second, &Call::Begin { id, gateway });
        while deliver(rng, &mut memory, &STALLED) {}
    }
    while deliver(rng, &mut memory, &[]) {}
    memory.call(&Second, &Call::Verdict) == CONSISTENT
}

/// Delivers a request that can be taken, if there is one, but no notice of a node that stalls.
fn deliver(rng: &mut Rng, memory: &mut Lent, stall: &[usize]) -> bool {
    let network = Network::decode(memory.used_state());
    let mut outstanding = network.outstanding();
    outstanding.retain(|&(sender, receiver)| {
        let joining = network.node(sender).joining();
        let held = joining && !network.node(receiver).in_system();
        !held && (joining || !stall.contains(&sender))
    });
    if outstanding.is_empty() {
        return false;
    }
    let (sender, receiver) = rng.pick(&outstanding);
    let (sender, receiver) = (sender as u64, receiver as u64);
    memory.call(&Second, &Call::Deliver { sender, receiver }) & 0xff == 0
}
