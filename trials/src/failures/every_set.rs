//! Every failed set of small networks, every pair of ends, and the survey: both engines answer what the literal reading does.

use super::{fits, small, Literal};
use crate::engine::Engine;
use crate::lent::Lent;
use crate::met::{meet, Met};
use crate::script::Call;
use crate::second::memory::COUNT;
use crate::surveys::adds_up;

pub fn every_set(a: &dyn Engine, b: &dyn Engine) -> Result<Met, String> {
    let mut met = Met::new();
    for (name, whole) in small() {
        let mut memory = whole.clone();
        for failed in 0..1 << whole.state[COUNT] {
            let judged = [a, b].into_iter().try_for_each(|engine| {
                surveyed(engine, &mut memory, &whole, failed)?;
                looked_up(engine, &mut memory, &whole, failed, &mut met)
            });
            judged.map_err(|what| format!("{name}, without {failed:#b}: {what}"))?;
        }
        if (&memory.state, &memory.tables) != (&whole.state, &whole.tables) {
            return Err(format!("{name}: the network has changed"));
        }
    }
    Ok(met)
}

fn surveyed(
    engine: &dyn Engine,
    memory: &mut Lent,
    whole: &Lent,
    failed: u64,
) -> Result<(), String> {
    memory.spoil_counts();
    let answer = memory.call(engine, &Call::Survey { failed });
    let (counts, expected) = (memory.used_counts(), Literal::new(whole, failed).survey());
    if answer != 0 || *counts != expected {
        let name = engine.name();
        return Err(format!(
            "{name}: survey {answer:#x}, {counts:?}, not {expected:?}"
        ));
    }
    adds_up(whole.used_state(), failed, counts)
}

fn looked_up(
    engine: &dyn Engine,
    memory: &mut Lent,
    whole: &Lent,
    failed: u64,
    met: &mut Met,
) -> Result<(), String> {
    let literal = Literal::new(whole, failed);
    let nodes = 1..=whole.state[COUNT];
    for from in nodes.clone() {
        for to in nodes.clone() {
            let answer = memory.call(engine, &Call::Lookup { from, to, failed });
            let expected = literal.lookup(from, to);
            if answer != expected {
                let name = engine.name();
                return Err(format!(
                    "{name}: {from} to {to}, {answer:#x}, not {expected:#x}"
                ));
            }
            if answer != 21 {
                fits(whole.used_state(), [from, to], failed, answer)?;
            }
            meet(met, kind(&literal, from, to)?);
        }
    }
    Ok(())
}

/// What became of a lookup. No way goes through a failed node.
fn kind(literal: &Literal, from: u64, to: u64) -> Result<&'static str, String> {
    if literal.has_failed(from) || literal.has_failed(to) {
        return Ok(if from == to {
            "refused, to itself"
        } else {
            "refused"
        });
    }
    let way = literal.way(from, to);
    if way.nodes.iter().any(|&node| literal.has_failed(node)) {
        return Err(format!("{from} to {to} goes {:?}", way.nodes));
    }
    let most = way.passed_over.iter().max().copied().unwrap_or(0);
    let at_end = way.passed_over.last().copied().unwrap_or(0);
    Ok(match (way.arrived, most, at_end) {
        (true, 0, _) => "arrived",
        (true, 1, _) => "arrived, around a failed node",
        (true, ..) => "arrived, two passed over at once",
        (false, _, 0) => "lost, nobody there",
        _ if way.nodes.len() > 1 => "lost on the way, none left",
        _ => "lost at once, none left",
    })
}
