//! The way of every lookup in small networks, around every failed set: as a path each is accepted, and so is each part of one.

use super::networks::small;
use super::steps::{is_kept, kind};
use crate::engine::Engine;
use crate::failures::{Literal, Way};
use crate::lent::Lent;
use crate::met::{meet, Met};
use crate::random::{path_of, trace_file, Path};
use crate::script::Call;
use crate::second::memory::COUNT;
use crate::surveys::left;

pub fn every_lookup(a: &dyn Engine, b: &dyn Engine) -> Result<Met, String> {
    let mut met = Met::new();
    for (name, whole) in small() {
        let mut memory = whole.clone();
        for failed in 0..1 << whole.state[COUNT] {
            let ways = ways(whole, failed);
            ways.iter().for_each(|way| meet(&mut met, kind(way)));
            let paths: Vec<Path> = ways.iter().map(|way| path_of(&way.nodes)).collect();
            let parts = parts(&paths);
            for files in [paths.chunks(255), parts.chunks(255)] {
                for paths in files {
                    accepted([a, b], &mut memory, paths)
                        .map_err(|what| format!("{name}, without {failed:#b}: {what}"))?;
                }
            }
        }
        is_kept(&memory, whole).map_err(|what| format!("{name}: {what}"))?;
    }
    Ok(met)
}

/// From each node that has not failed to each.
fn ways(memory: &Lent, failed: u64) -> Vec<Way> {
    let literal = Literal::new(memory, failed);
    let nodes = left(memory.used_state(), failed);
    let pairs = nodes
        .clone()
        .flat_map(|from| nodes.clone().map(move |to| (from, to)));
    pairs.map(|(from, to)| literal.way(from, to)).collect()
}

/// Each path without its last node, and without its first.
fn parts(paths: &[Path]) -> Vec<Path> {
    let longer = paths.iter().filter(|path| path.len() > 1);
    let parts = longer.flat_map(|path| [&path[1..], &path[..path.len() - 1]]);
    parts.map(<[u8]>::to_vec).collect()
}

fn accepted(engines: [&dyn Engine; 2], memory: &mut Lent, paths: &[Path]) -> Result<(), String> {
    let trace = trace_file(paths);
    let call = Call::Trace { trace };
    for engine in engines {
        let answer = memory.call(engine, &call);
        if answer != 0 {
            return Err(format!("{call}: {} {answer:#x}", engine.name()));
        }
    }
    Ok(())
}
