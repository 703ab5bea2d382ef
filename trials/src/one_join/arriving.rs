//! Since a point at which the verdict passes, whatever joins are under way, several at once, and while fewer nodes than the depth have failed: a lookup
//! from any other node in system or notifying to any other node of that point arrives. So does one from a node that waits; from one that copies it may
//! be lost.

use super::known::known_stand;
use super::networks::{Origin, CONSISTENT};
use crate::compare::Pair;
use crate::engine::Engine;
use crate::failures::{arrives, Literal};
use crate::met::{meet, Met};
use crate::random::{all_ids, seeds, settings, Rng};
use crate::script::Call;
use crate::second::memory::COUNT;
use crate::second::network::{Network, Status};
use crate::steps::{beginning, call, delivery_of_others, expect, network};

const STEPS: usize = 150;

pub fn arriving(a: &dyn Engine, b: &dyn Engine) -> Result<Met, String> {
    let mut met = Met::new();
    for seed in seeds(8_000, 60) {
        let rng = &mut Rng::new(seed);
        let (settings, nodes) = small(rng);
        let origin = rng.pick(&Origin::ALL);
        let start = origin.network(rng, settings, nodes);
        let mut pair = Pair::new(a, b);
        pair.restore(&start.state, &start.tables);
        let played = play(&mut pair, rng, &mut met);
        played.map_err(|what| format!("seed {seed}, {settings:?}, {origin:?}: {what}"))?;
    }
    Ok(met)
}

/// Settings, and up to twelve nodes, fewer than there are ids.
fn small(rng: &mut Rng) -> ([u64; 3], usize) {
    let settings = settings(rng);
    let ids = all_ids(settings).take(13).count();
    let nodes = rng.between(1, ids as u64 - 1) as usize;
    let settings = [settings.base(), settings.digits(), settings.depth()];
    (settings.map(|setting| setting as u64), nodes)
}

/// Each point at which the verdict passes counts from there on.
fn play(pair: &mut Pair, rng: &mut Rng, met: &mut Met) -> Result<(), String> {
    let mut known = network(pair).count();
    let most = known + rng.between(2, 12) as usize;
    let pace = rng.pick(&[2, 4, 8]);
    for _ in 0..STEPS {
        let network = network(pair);
        let begin = beginning(rng, &network);
        let begin = begin.filter(|_| network.count() < most && rng.once_in(pace));
        let deliver = || delivery_of_others(rng, &network, 0);
        let Some(made) = begin.or_else(deliver) else {
            continue;
        };
        call(pair, made)?;
        withdraw(pair, rng, met)?;
        if call(pair, Call::Verdict)? == CONSISTENT {
            known = pair.memory().state[COUNT] as usize;
            meet(met, "passed again");
        }
        known_stand(pair.memory(), known)?;
        for failed in [0, few(rng, &self::network(pair))] {
            each_arrives(pair, known, failed, met)?;
            some_arrive(pair, rng, known, failed)?;
        }
    }
    Ok(())
}

/// Once in a while the highest-numbered node, if it copies or waits.
fn withdraw(pair: &mut Pair, rng: &mut Rng, met: &mut Met) -> Result<(), String> {
    let network = network(pair);
    let node = network.count();
    if network.node(node).joining() && rng.once_in(12) {
        expect(pair, Call::Withdraw { node: node as u64 }, 0)?;
        meet(met, "withdrawn");
    }
    Ok(())
}

/// A set of fewer nodes than the depth.
fn few(rng: &mut Rng, network: &Network) -> u64 {
    let count = rng.between(0, network.settings.depth() as u64 - 1);
    let drawn = (0..count).map(|_| bit(rng.between(1, network.count() as u64)));
    drawn.fold(0, |set, one| set | one)
}

fn bit(node: u64) -> u64 {
    1 << (node - 1)
}

/// By the literal way.
fn each_arrives(pair: &Pair, known: usize, failed: u64, met: &mut Met) -> Result<(), String> {
    let network = network(pair);
    let literal = Literal::new(pair.memory(), failed);
    for (from, node) in network.iter() {
        for to in 1..=known {
            if failed & (bit(from as u64) | bit(to as u64)) != 0 {
                continue;
            }
            let way = literal.way(from as u64, to as u64);
            if !way.arrived && !matches!(node.status, Status::Copying { .. }) {
                return Err(format!(
                    "{from} to {to} of {known} without {failed:#x} goes {way:?}"
                ));
            }
            meet(met, kind(node.status, from <= known, way.arrived));
            if failed != 0 {
                meet(met, "around failed nodes");
            }
        }
    }
    Ok(())
}

/// By the engines. The two ends have not failed.
fn some_arrive(pair: &mut Pair, rng: &mut Rng, known: usize, failed: u64) -> Result<(), String> {
    let from = attached(rng, &network(pair));
    let to = rng.between(1, known as u64);
    let failed = failed & !(bit(from) | bit(to));
    let answer = call(pair, Call::Lookup { from, to, failed })?;
    let arrived = arrives(answer, to);
    arrived
        .then_some(())
        .ok_or_else(|| format!("{from} to {to} of {known} without {failed:#x}: {answer:#x}"))
}

fn attached(rng: &mut Rng, network: &Network) -> u64 {
    let attached = network.iter().filter(|(_, node)| !node.joining());
    let attached: Vec<usize> = attached.map(|(number, _)| number).collect();
    rng.pick(&attached) as u64
}

fn kind(status: Status, known: bool, arrived: bool) -> &'static str {
    match (status, known, arrived) {
        (Status::Copying { .. }, _, true) => "copying, arrived",
        (Status::Copying { .. }, _, false) => "copying, lost",
        (Status::Waiting { .. }, ..) => "waiting",
        (Status::Notifying { .. }, ..) => "notifying",
        (Status::InSystem, true, _) => "of that point",
        (Status::InSystem, false, _) => "settled since",
    }
}
