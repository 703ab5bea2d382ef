//! Every path of up to four numbers in small networks, alone in its file and behind an allowed one.

use super::networks::small;
use super::steps::{answered, is_kept};
use crate::engine::Engine;
use crate::lent::Lent;
use crate::met::{meet, Met};
use crate::random::{trace_file, Path};
use crate::second::memory::COUNT;

/// How many nodes a network has at most whose paths of four numbers are tried.
const FEW: u64 = 6;

pub fn every_path(a: &dyn Engine, b: &dyn Engine) -> Result<Met, String> {
    let mut met = Met::new();
    for (name, whole) in small() {
        let mut memory = whole.clone();
        for path in all_paths(whole.state[COUNT]) {
            alone_and_behind([a, b], &mut memory, path, &mut met)
                .map_err(|what| format!("{name}: {what}"))?;
        }
        is_kept(&memory, whole).map_err(|what| format!("{name}: {what}"))?;
    }
    Ok(met)
}

/// Of so many nodes, and up to three also of 0 and of the number past them.
fn all_paths(count: u64) -> Vec<Path> {
    let short = (1..=3).flat_map(|length| of_numbers(0, count + 2, length));
    let nodes = if count <= FEW { count } else { 0 };
    short.chain(of_numbers(1, nodes, 4)).collect()
}

/// Every path of this length of so many numbers from the first on.
fn of_numbers(first: u64, numbers: u64, length: u32) -> impl Iterator<Item = Path> {
    (0..numbers.pow(length)).map(move |which| {
        let number = |place| (first + which / numbers.pow(place) % numbers) as u8;
        (0..length).map(number).collect()
    })
}

/// In a second path everything is refused as in a first one, but for the path.
fn alone_and_behind(
    engines: [&dyn Engine; 2],
    memory: &mut Lent,
    path: Path,
    met: &mut Met,
) -> Result<(), String> {
    let alone = trace_file(&[path.clone()]);
    let behind = trace_file(&[vec![1], path]);
    let answer = answered(engines, memory, alone, met)?;
    let expected = match answer {
        0 => 0,
        _ => answer + 0x100,
    };
    let found = answered(engines, memory, behind, met)?;
    if found != expected {
        return Err(format!(
            "{answer:#x} alone, {found:#x} behind an allowed path"
        ));
    }
    let step = answer >> 16;
    match (answer & 0xff, step) {
        (23, 1) => meet(met, "the first step"),
        (23, 2) => meet(met, "the second step"),
        (23, _) => meet(met, "the third step"),
        _ => {}
    }
    Ok(())
}
