//! Paths that are allowed, in any sound state, up to 64 nodes and 255 paths: those of lookups around failed nodes, and by any node of each entry.

use super::steps::kind;
use crate::compare::Pair;
use crate::engine::Engine;
use crate::failures::{joined, Literal};
use crate::lent::Lent;
use crate::met::{meet, Met};
use crate::random::{failed_set, part, path_of, seeds, some_state, trace_file, wandering};
use crate::random::{Path, Rng};
use crate::script::{set_of, Call};
use crate::second::memory::COUNT;
use crate::second::network::Network;
use crate::steps::expect;

pub fn accepted(a: &dyn Engine, b: &dyn Engine) -> Result<Met, String> {
    let mut met = Met::new();
    let mut pair = Pair::new(a, b);
    for seed in seeds(1_000, 200) {
        let rng = &mut Rng::new(seed);
        let memory = state(rng);
        pair.restore(&memory.state, &memory.tables);
        if !Network::decode(memory.used_state()).all_in_system() {
            meet(&mut met, "joins under way");
        }
        for count in [0, 1, 2, 20, 255] {
            let judged = judge(&mut pair, rng, &memory, count, &mut met);
            judged.map_err(|what| format!("seed {seed}, {count} paths: {what}"))?;
        }
    }
    Ok(met)
}

/// Any sound state, or a network whose entries hold many.
fn state(rng: &mut Rng) -> Lent {
    let deep = [
        ([2, 8, 4], 64),
        ([4, 4, 3], 40),
        ([3, 4, 4], 30),
        ([16, 3, 2], 64),
    ];
    match rng.below(4) {
        0 => {
            let (settings, nodes) = rng.pick(&deep);
            joined(rng, settings, nodes)
        }
        _ => some_state(rng),
    }
}

/// So many paths of lookups, by any nodes, of both kinds, and parts of these.
fn judge(
    pair: &mut Pair,
    rng: &mut Rng,
    memory: &Lent,
    count: usize,
    met: &mut Met,
) -> Result<(), String> {
    let looked_up = (0..count).map(|_| looked_up(pair, rng, memory, met));
    let looked_up = looked_up.collect::<Result<Vec<Path>, String>>()?;
    let wandered: Vec<Path> = (0..count).map(|_| wandered(rng, memory, met)).collect();
    let mut mixed = vec![];
    for (one, other) in looked_up.iter().zip(&wandered) {
        mixed.push(rng.pick(&[&one[..], other]).to_vec());
    }
    let parts: Vec<Path> = mixed.iter().map(|path| part(rng, path)).collect();
    for paths in [looked_up, wandered, mixed, parts] {
        let trace = trace_file(&paths);
        expect(pair, Call::Trace { trace }, 0)?;
        meet(met, "files");
        *met.entry("paths").or_default() += count;
    }
    Ok(())
}

/// The literal way of a lookup, which ends as the engines' do.
fn looked_up(pair: &mut Pair, rng: &mut Rng, memory: &Lent, met: &mut Met) -> Result<Path, String> {
    let [from, to] = ends(rng, memory);
    let count = memory.state[COUNT] as usize;
    let front = Literal::new(memory, 0).entry(from, to);
    let front = &front[..rng.below(front.len() + 1)];
    let failed = (failed_set(rng, count) | set_of(front)) & !set_of(&[from, to]);
    let way = Literal::new(memory, failed).way(from, to);
    expect(pair, Call::Lookup { from, to, failed }, way.answer())?;
    meet(met, kind(&way));
    Ok(path_of(&way.nodes))
}

/// By any node of each entry.
fn wandered(rng: &mut Rng, memory: &Lent, met: &mut Met) -> Path {
    let ends = ends(rng, memory);
    let path = wandering(rng, memory, ends);
    let (literal, [_, to]) = (Literal::new(memory, 0), ends);
    let slots = path.windows(2).map(|step| {
        let entry = literal.entry(step[0].into(), to);
        let slot = entry.iter().position(|&node| node == step[1].into());
        slot.expect("a wandering goes by the entries")
    });
    match slots.max() {
        None => meet(met, "wandered nowhere"),
        Some(0) => meet(met, "by the first of each"),
        Some(1) => meet(met, "by a second"),
        Some(2) => meet(met, "by a third"),
        Some(_) => meet(met, "by a fourth"),
    }
    path
}

fn ends(rng: &mut Rng, memory: &Lent) -> [u64; 2] {
    [0; 2].map(|_| rng.between(1, memory.state[COUNT]))
}
