//! While a single node joins, its own requests are all that can be delivered, and calls that look or are refused change neither the network nor what the
//! join comes to.

use super::networks::Origin;
use super::steps::{asked, some_beginning};
use crate::compare::{same_network, Pair};
use crate::engine::{Engine, Second};
use crate::met::{meet, Met};
use crate::random::{seeds, Rng};
use crate::script::Call;
use crate::steps::{call, expect, expect_kept, network};

const SETTINGS: [[u64; 3]; 6] = [
    [2, 4, 1],
    [2, 4, 2],
    [3, 3, 2],
    [4, 2, 3],
    [16, 8, 4],
    [2, 6, 3],
];

pub fn nothing_else(a: &dyn Engine, b: &dyn Engine) -> Result<Met, String> {
    let mut met = Met::new();
    for (seed, settings) in seeds(7_000, 72).zip(SETTINGS.into_iter().cycle()) {
        let rng = &mut Rng::new(seed);
        let (origin, nodes) = (rng.pick(&Origin::ALL), rng.between(1, 9) as usize);
        let network = origin.network(rng, settings, nodes);
        let mut pair = Pair::new(a, b);
        pair.restore(&network.state, &network.tables);
        let joined = join_watched(&mut pair, rng, &mut met);
        joined.map_err(|what| format!("seed {seed}, {settings:?}, {origin:?}: {what}"))?;
    }
    Ok(met)
}

/// Beside a memory in which only the beginning and the deliveries are called.
fn join_watched(pair: &mut Pair, rng: &mut Rng, met: &mut Met) -> Result<(), String> {
    let mut alone = pair.memory().clone();
    let (id, gateway) = some_beginning(rng, pair).expect("an id is left");
    let sender = network(pair).count() as u64 + 1;
    let begin = Call::Begin { id, gateway };
    alone.call(&Second, &begin);
    expect(pair, begin, sender << 8)?;
    while !network(pair).node(sender as usize).in_system() {
        looks(pair, rng, sender, met)?;
        refused(pair, sender, met)?;
        same_network(["alone", "looked at"], &alone, pair.memory())?;
        let receiver = rng.pick(&asked(pair, sender));
        let own = Call::Deliver { sender, receiver };
        let answer = alone.call(&Second, &own);
        expect(pair, own, answer)?;
        meet(met, "its own");
    }
    same_network(["alone", "looked at"], &alone, pair.memory())
}

/// Lookups, with failed nodes too, which may be refused, and surveys; traces, accepted and refused; a verdict, a filling and writings, which are refused, but for the
/// writing of version 2; a founding out of range and a reading of no image.
fn looks(pair: &mut Pair, rng: &mut Rng, node: u64, met: &mut Met) -> Result<(), String> {
    for failed in [0, rng.word() & rng.word()] {
        for (from, to) in [(1, node), (node, 1), (rng.between(1, node), node)] {
            call(pair, Call::Lookup { from, to, failed })?;
        }
        expect(pair, Call::Survey { failed }, 0)?;
    }
    let (new, past) = (node as u8, node as u8 + 1);
    for (trace, answer) in [
        (vec![2, 1, 1, 1, new], 0),
        (vec![2, 1, new, 1, past], 0x1_0209),
        (vec![1, 2, new, new], 0x1_0117),
        (vec![1, 1], 22),
    ] {
        expect(pair, Call::Trace { trace }, answer)?;
    }
    expect(pair, Call::Sound, 0)?;
    expect(pair, Call::Verdict, 15)?;
    expect(pair, Call::WRITE_1, 15)?;
    expect(pair, Call::Fill, 15)?;
    expect(pair, Call::Write { version: 3 }, 4)?;
    written_and_read(pair)?;
    expect(pair, Call::Read { image: vec![4] }, 3)?;
    let settings = [1, 1, 1];
    expect(pair, Call::Found { settings, id: 0 }, 5)?;
    meet(met, "looked");
    Ok(())
}

/// An image of version 2 is written, and is the whole network: reading it changes no byte.
fn written_and_read(pair: &mut Pair) -> Result<(), String> {
    let answer = call(pair, Call::WRITE_2)?;
    if answer & 0xff != 0 {
        return Err(format!("{}: refused, {answer:#x}", Call::WRITE_2));
    }
    let image = pair.memory().out[..(answer >> 8) as usize].to_vec();
    expect_kept(pair, Call::Read { image }, 0)
}

/// Deliveries of every other pair of numbers, and the beginning of an id that a node has.
fn refused(pair: &mut Pair, node: u64, met: &mut Met) -> Result<(), String> {
    let own = asked(pair, node);
    for sender in 0..=node + 1 {
        for receiver in 0..=node + 1 {
            if sender == node && own.contains(&receiver) {
                continue;
            }
            let no_node = [sender, receiver].iter().any(|&n| n == 0 || n > node);
            let refusal = if no_node { 9 } else { 13 };
            expect(pair, Call::Deliver { sender, receiver }, refusal)?;
            meet(met, "not its own");
        }
    }
    let id = network(pair).node(1).id;
    expect(pair, Call::Begin { id, gateway: 1 }, 8)
}
