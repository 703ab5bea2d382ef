//! Files with one fault, with two, and with a wrong end, each with the answer that the faults make: the number decides first, then the first path.

use super::faults::{faults, Piece, KINDS};
use super::networks::{networks, ways};
use crate::compare::Pair;
use crate::engine::Engine;
use crate::lent::Lent;
use crate::met::{meet, Met};
use crate::random::Path;
use crate::script::Call;
use crate::steps::expect;

pub fn faulty(a: &dyn Engine, b: &dyn Engine) -> Result<Met, String> {
    let mut met = Met::new();
    let mut pair = Pair::new(a, b);
    for (name, memory) in networks() {
        pair.restore(&memory.state, &memory.tables);
        let paths = ways(memory);
        let judged = one_fault(&mut pair, memory, &paths, &mut met)
            .and_then(|()| two_faults(&mut pair, memory, &paths, &mut met))
            .and_then(|()| wrong_ends(&mut pair, memory, &paths, &mut met));
        judged.map_err(|what| format!("{name}: {what}"))?;
    }
    Ok(met)
}

/// Alone, and as each of three paths.
fn one_fault(pair: &mut Pair, memory: &Lent, paths: &[Path], met: &mut Met) -> Result<(), String> {
    let right = [0, paths.len() / 2].map(|at| Piece::right(&paths[at]));
    for path in paths {
        for wrong in faults(memory, path) {
            meet(met, wrong.fault.map_or("none", |fault| fault.kind));
            is_answered(pair, &[wrong.clone()])?;
            for place in 0..3 {
                let mut pieces = right.to_vec();
                pieces.insert(place, wrong.clone());
                is_answered(pair, &pieces)?;
            }
        }
    }
    Ok(())
}

/// Of every two kinds, one in the first path and one in the last, and next to each other.
fn two_faults(pair: &mut Pair, memory: &Lent, paths: &[Path], met: &mut Met) -> Result<(), String> {
    let all: Vec<Piece> = paths.iter().flat_map(|path| faults(memory, path)).collect();
    let right = Piece::right(&paths[0]);
    let of_kind = |kind| {
        let has = move |piece: &&Piece| piece.fault.is_some_and(|fault| fault.kind == kind);
        [all.iter().find(has), all.iter().rfind(has)]
    };
    let ends: Vec<&Piece> = KINDS.into_iter().flat_map(of_kind).flatten().collect();
    for &early in &ends {
        for &late in &ends {
            is_answered(
                pair,
                &[early.clone(), right.clone(), right.clone(), late.clone()],
            )?;
            is_answered(pair, &[right.clone(), early.clone(), late.clone()])?;
            meet(met, two(early, late));
        }
    }
    Ok(())
}

/// Two faults by their numbers.
fn two(early: &Piece, late: &Piece) -> &'static str {
    let number = |piece: &Piece| piece.fault.map_or(0, |fault| fault.refusal);
    match (number(early), number(late)) {
        (22, 22) => "22 and 22",
        (22, 9) => "22 and 9",
        (22, 23) => "22 and 23",
        (9, 22) => "9 and 22",
        (9, 9) => "9 and 9",
        (9, 23) => "9 and 23",
        (23, 22) => "23 and 22",
        (23, 9) => "23 and 9",
        _ => "23 and 23",
    }
}

/// A byte behind the last path, a byte missing, a path more or less than is counted: refused 22, whatever else is wrong.
fn wrong_ends(pair: &mut Pair, memory: &Lent, paths: &[Path], met: &mut Met) -> Result<(), String> {
    for path in paths {
        let right = Piece::right(path);
        for piece in faults(memory, path).into_iter().chain([right.clone()]) {
            let file = file(&[right.clone(), piece]);
            let (last, more, less) = (file.len() - 1, file[0] + 1, file[0] - 1);
            let ends = [
                [&file[..], &[0]].concat(),
                [&file[..], &[1, 1]].concat(),
                file[..last].to_vec(),
                [&[more], &file[1..]].concat(),
                [&[less], &file[1..]].concat(),
            ];
            for trace in ends {
                expect(pair, Call::Trace { trace }, 22)?;
                meet(met, "a wrong end");
            }
        }
    }
    Ok(())
}

fn file(pieces: &[Piece]) -> Vec<u8> {
    let mut file = vec![pieces.len() as u8];
    pieces.iter().for_each(|piece| file.extend(&piece.bytes));
    file
}

fn is_answered(pair: &mut Pair, pieces: &[Piece]) -> Result<(), String> {
    let trace = file(pieces);
    expect(pair, Call::Trace { trace }, answer(pieces))
        .map_err(|what| format!("{pieces:?}: {what}"))
}

/// 22 has no place; of 9 and of 23 the first path that has it.
fn answer(pieces: &[Piece]) -> u64 {
    let numbered = (1..).zip(pieces);
    let faults = numbered.filter_map(|(path, piece)| piece.fault.map(|fault| (path, fault)));
    let faults: Vec<(u64, _)> = faults.collect();
    let first = |refusal| {
        faults
            .iter()
            .find(move |(_, fault)| fault.refusal == refusal)
    };
    match (first(22), first(9).or(first(23))) {
        (Some(_), _) => 22,
        (None, Some((path, fault))) => fault.place << 16 | path << 8 | fault.refusal,
        (None, None) => 0,
    }
}
