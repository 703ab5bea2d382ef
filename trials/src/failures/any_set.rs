//! Random sets in any sound state, up to 64 nodes, also with numbers that no node has: these mean nothing, and without failed nodes each hop goes to the
//! first of its entry.

use super::Literal;
use crate::compare::Pair;
use crate::engine::Engine;
use crate::lent::Lent;
use crate::met::{meet, Met};
use crate::random::{all_nodes, bad_number, failed_set, seeds, some_state, Rng};
use crate::script::{set_of, Call};
use crate::second::memory::COUNT;
use crate::steps::{call, expect};

pub fn any_set(a: &dyn Engine, b: &dyn Engine) -> Result<Met, String> {
    let mut met = Met::new();
    let mut pair = Pair::new(a, b);
    for seed in seeds(1_000, 200) {
        let rng = &mut Rng::new(seed);
        let memory = some_state(rng);
        pair.restore(&memory.state, &memory.tables);
        let count = memory.state[COUNT] as usize;
        let nodes = all_nodes(count);
        let one = set_of(&[rng.between(1, count as u64)]);
        let drawn = [0; 6].map(|_| failed_set(rng, count));
        let fixed = [0, one, nodes & !one, nodes, !nodes, u64::MAX];
        for failed in drawn.into_iter().chain(fixed) {
            let judged = judge(&mut pair, rng, &memory, failed, &mut met);
            judged.map_err(|what| format!("seed {seed}, without {failed:#x}: {what}"))?;
        }
    }
    Ok(met)
}

/// The survey and some lookups, with the set and with those of its numbers that nodes have.
fn judge(
    pair: &mut Pair,
    rng: &mut Rng,
    memory: &Lent,
    failed: u64,
    met: &mut Met,
) -> Result<(), String> {
    let count = memory.state[COUNT] as usize;
    let of_nodes = failed & all_nodes(count);
    meet(met, kind(failed, count));
    for set in [failed, of_nodes] {
        expect(pair, Call::Survey { failed: set }, 0)?;
        let (counts, expected) = (
            pair.memory().used_counts(),
            Literal::new(memory, of_nodes).survey(),
        );
        if *counts != expected {
            return Err(format!("surveyed {counts:?}, not {expected:?}"));
        }
    }
    for _ in 0..4 {
        let [from, to] = ends(rng, count);
        let front = front(rng, memory, from, to);
        let failed = failed | rng.pick(&[0, front]);
        looked_up(pair, memory, [from, to], failed, met)?;
    }
    Ok(())
}

/// Mostly two nodes, at times the highest-numbered.
fn ends(rng: &mut Rng, count: usize) -> [u64; 2] {
    [0; 2].map(|_| match rng.below(12) {
        0 => bad_number(rng, count),
        1 | 2 => count as u64,
        _ => rng.between(1, count as u64),
    })
}

/// Some of the nodes that stand in front in the start's entry, but not the destination.
fn front(rng: &mut Rng, memory: &Lent, from: u64, to: u64) -> u64 {
    let count = memory.state[COUNT];
    let nodes = [from, to].iter().all(|end| (1..=count).contains(end));
    let entry = match nodes {
        true => Literal::new(memory, 0).entry(from, to),
        false => vec![],
    };
    let front = &entry[..rng.below(entry.len() + 1)];
    set_of(front) & !set_of(&[to])
}

fn looked_up(
    pair: &mut Pair,
    memory: &Lent,
    [from, to]: [u64; 2],
    failed: u64,
    met: &mut Met,
) -> Result<(), String> {
    let count = memory.state[COUNT] as usize;
    let of_nodes = failed & all_nodes(count);
    let literal = Literal::new(memory, of_nodes);
    let answer = call(pair, Call::Lookup { from, to, failed })?;
    let cut = Call::Lookup {
        from,
        to,
        failed: of_nodes,
    };
    expect(pair, cut, answer)?;
    let mut expected = literal.lookup(from, to);
    if of_nodes == 0 && expected != 9 {
        expected = literal.by_the_first_of_each(from, to);
        meet(met, "by the first of each");
    }
    if answer != expected {
        return Err(format!("{from} to {to}: {answer:#x}, not {expected:#x}"));
    }
    meet(met, outcome(answer));
    Ok(())
}

fn kind(failed: u64, count: usize) -> &'static str {
    let nodes = all_nodes(count);
    match (failed & nodes, failed & !nodes) {
        (0, 0) => "nobody",
        (0, _) => "only numbers that no node has",
        (_, _) if failed == u64::MAX => "all numbers",
        (all, _) if all == nodes => "all nodes",
        (_, 0) => "some nodes",
        _ => "some nodes, and numbers that no node has",
    }
}

fn outcome(answer: u64) -> &'static str {
    match (answer & 0xff, answer >> 8 & 0xff) {
        (0, 1) => "arrived",
        (0, _) => "lost",
        (9, _) => "no node",
        _ => "refused",
    }
}
