//! Networks that pass the verdict: with fewer failed nodes than an entry holds every lookup between two others arrives; with so many it may be lost.

use super::{joined, Literal};
use crate::engine::Engine;
use crate::lent::Lent;
use crate::met::{meet, Met};
use crate::random::{all_nodes, seeds, Rng};
use crate::script::{set_of, Call};
use crate::second::memory::{COUNT, DEPTH};
use crate::second::LOST;
use crate::surveys::left;

/// Base, digits, and how many nodes; each with every depth.
const NETWORKS: [(u64, u64, usize); 5] = [(2, 4, 8), (3, 3, 8), (16, 8, 7), (4, 4, 40), (2, 8, 64)];

/// How many nodes a network has at most whose every set of few enough nodes fails.
const FEW: usize = 8;

pub fn survived(a: &dyn Engine, b: &dyn Engine) -> Result<Met, String> {
    let mut met = Met::new();
    for (seed, &(base, digits, nodes)) in seeds(2_000, 10).zip(NETWORKS.iter().cycle()) {
        for depth in 1..=4 {
            let rng = &mut Rng::new(seed);
            let mut memory = joined(rng, [base, digits, depth], nodes);
            let sets = fewer(rng, nodes, depth as usize);
            for engine in [a, b] {
                let judged = survives(engine, &mut memory, &sets, &mut met)
                    .and_then(|()| may_be_lost(engine, &mut memory, &mut met));
                let name = engine.name();
                judged.map_err(|what| format!("seed {seed}, depth {depth}, {name}: {what}"))?;
            }
        }
    }
    Ok(met)
}

/// Sets of fewer nodes than the depth: all of few nodes, some of many.
fn fewer(rng: &mut Rng, nodes: usize, depth: usize) -> Vec<u64> {
    let few = |set: &u64| (set.count_ones() as usize) < depth;
    if nodes <= FEW {
        return (0..=all_nodes(nodes)).filter(few).collect();
    }
    let drawn = (0..20).map(|_| {
        let numbers = (1..depth).map(|_| rng.between(1, nodes as u64));
        set_of(&numbers.collect::<Vec<_>>()) | rng.word() & !all_nodes(nodes)
    });
    drawn.collect()
}

/// By the verdict, by each lookup in a small network, and by the survey.
fn survives(
    engine: &dyn Engine,
    memory: &mut Lent,
    sets: &[u64],
    met: &mut Met,
) -> Result<(), String> {
    let verdict = memory.call(engine, &Call::Verdict);
    if verdict != 0x100 {
        return Err(format!("verdict {verdict:#x}"));
    }
    for &failed in sets {
        memory.spoil_counts();
        let answer = memory.call(engine, &Call::Survey { failed });
        let lost = memory.used_counts()[LOST];
        if answer != 0 || lost != 0 {
            return Err(format!("without {failed:#x}: {answer:#x}, {lost} lost"));
        }
        if memory.state[COUNT] as usize <= FEW {
            each_arrives(engine, memory, failed)?;
        }
        meet(met, "survived");
    }
    Ok(())
}

/// The lookup is taken and ends at its destination.
pub fn arrives(answer: u64, to: u64) -> bool {
    answer & 0xff00_ffff == to << 24 | 0x100
}

fn each_arrives(engine: &dyn Engine, memory: &mut Lent, failed: u64) -> Result<(), String> {
    let nodes = left(memory.used_state(), failed);
    for from in nodes.clone() {
        for to in nodes.clone() {
            let answer = memory.call(engine, &Call::Lookup { from, to, failed });
            if !arrives(answer, to) {
                return Err(format!("{from} to {to} without {failed:#x}: {answer:#x}"));
            }
        }
    }
    Ok(())
}

/// Where an entry is full and the destination does not stand in it, the lookup is lost once all of it have failed; with any one of them left it arrives.
fn may_be_lost(engine: &dyn Engine, memory: &mut Lent, met: &mut Met) -> Result<(), String> {
    const LOST_WITH: [&str; 4] = ["lost with 1", "lost with 2", "lost with 3", "lost with 4"];
    let whole = memory.clone();
    let literal = Literal::new(&whole, 0);
    let (nodes, depth) = (1..=whole.state[COUNT], whole.state[DEPTH] as usize);
    let pairs = nodes
        .clone()
        .flat_map(|from| nodes.clone().map(move |to| (from, to)));
    let one_in = 1 + whole.state[COUNT] as usize / FEW;
    for (from, to) in pairs.filter(|(from, to)| from != to).step_by(one_in) {
        let entry = literal.entry(from, to);
        if entry.len() < depth || entry.contains(&to) {
            continue;
        }
        let mut looked_up = |failed| memory.call(engine, &Call::Lookup { from, to, failed });
        let all = set_of(&entry);
        let one_left = entry.iter().map(|&node| all & !set_of(&[node]));
        let survived = one_left
            .map(&mut looked_up)
            .all(|answer| arrives(answer, to));
        let answer = looked_up(all);
        if answer != from << 24 || !survived {
            return Err(format!(
                "{from} to {to} without {entry:?}: {answer:#x}, {survived}"
            ));
        }
        meet(met, LOST_WITH[depth - 1]);
    }
    Ok(())
}
