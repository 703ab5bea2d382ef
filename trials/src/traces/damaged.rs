//! Files of allowed paths with one byte changed, cut at every byte, and with bytes behind them: what is known from the place that was changed, and both
//! engines beside the literal reading.

use super::networks::networks;
use super::steps::{answered, is_kept};
use crate::engine::Engine;
use crate::lent::Lent;
use crate::met::{meet, Met};
use crate::random::{cuts, no_nodes, paths, seeds, some_state, trace_file, Path, Rng};
use crate::second::memory::COUNT;

pub fn damaged(a: &dyn Engine, b: &dyn Engine) -> Result<Met, String> {
    let mut met = Met::new();
    let every: Vec<u8> = (0..=255).collect();
    for (name, memory) in networks() {
        let rng = &mut Rng::new(7);
        let judged = judge([a, b], memory, rng, &every, &mut met);
        judged.map_err(|what| format!("{name}: {what}"))?;
    }
    for seed in seeds(2_000, 40) {
        let rng = &mut Rng::new(seed);
        let memory = some_state(rng);
        let count = memory.state[COUNT];
        let others = [1, 2, 8, 9, 10, count as u8];
        let values = [&others[..], &no_nodes(count)].concat();
        let judged = judge([a, b], &memory, rng, &values, &mut met);
        judged.map_err(|what| format!("seed {seed}: {what}"))?;
    }
    Ok(met)
}

/// A file of some paths: each byte changed to these values, and what it ends with.
fn judge(
    engines: [&dyn Engine; 2],
    whole: &Lent,
    rng: &mut Rng,
    values: &[u8],
    met: &mut Met,
) -> Result<(), String> {
    let paths = paths(rng, whole, 6);
    let file = trace_file(&paths);
    let mut memory = whole.clone();
    for (at, stands) in bytes(&paths).into_iter().enumerate() {
        for &value in values.iter().filter(|&&value| value != file[at]) {
            let mut changed = file.clone();
            changed[at] = value;
            let answer = answered(engines, &mut memory, changed, met)?;
            if !stands.may_answer(value, whole.state[COUNT], answer) {
                return Err(format!("{paths:?}, byte {at} is {value}: {answer:#x}"));
            }
        }
    }
    for wrong in cuts(&file).chain(longer(&file)) {
        if answered(engines, &mut memory, wrong, met)? != 22 {
            return Err(format!("{paths:?}, cut or longer"));
        }
        meet(met, "cut or longer");
    }
    is_kept(&memory, whole)
}

/// What a byte of a file is. Paths and places count from 1.
#[derive(Clone, Copy)]
enum Byte {
    Paths,
    Nodes { last: bool },
    Number { path: u64, place: u64, last: bool },
}

/// Every byte of the file of these paths.
fn bytes(paths: &[Path]) -> Vec<Byte> {
    let mut all = vec![Byte::Paths];
    for (path, nodes) in (1..).zip(paths) {
        all.push(Byte::Nodes {
            last: path == paths.len() as u64,
        });
        let count = nodes.len() as u64;
        all.extend((1..=count).map(|place| Byte::Number {
            path,
            place,
            last: place == count,
        }));
    }
    all
}

impl Byte {
    /// May a file be answered so in which this byte became another? Another node is allowed there or not, and only a step to it or from it can be wrong, but
    /// another destination makes other steps of its path wrong. Where the count of nodes changes in a path that is not the last, all behind it reads otherwise.
    fn may_answer(self, value: u8, count: u64, answer: u64) -> bool {
        let (path_of, place_of) = (answer >> 8 & 0xff, answer >> 16);
        match self {
            Byte::Paths => answer == 22,
            Byte::Nodes { last } => answer == 22 || !last && (1..=9).contains(&value),
            Byte::Number { path, place, .. } if value == 0 || u64::from(value) > count => {
                answer == place << 16 | path << 8 | 9
            }
            Byte::Number { path, place, last } => {
                let near = place_of == place || place_of + 1 == place;
                answer == 0 || answer & 0xff == 23 && path_of == path && (near || last)
            }
        }
    }
}

/// With bytes behind it, and with all of it again.
fn longer(file: &[u8]) -> Vec<Vec<u8>> {
    let behind: [&[u8]; 6] = [&[0], &[1], &[255], &[1, 1], &[0; 300], &[1; 3_000]];
    let mut all: Vec<Vec<u8>> = behind.map(|more| [file, more].concat()).into();
    all.push([file, file].concat());
    all
}
