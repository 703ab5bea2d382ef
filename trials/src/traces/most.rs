//! As many paths as a file holds, of nine nodes each: a fault in any of them is named by its path and its place.

use super::long_ways;
use super::networks::{chain, network};
use crate::compare::Pair;
use crate::engine::Engine;
use crate::random::trace_file;
use crate::script::Call;
use crate::steps::expect;

const PATHS: usize = 255;

/// The longest way of the chain.
const WAY: [u8; 9] = [1, 2, 3, 4, 5, 6, 7, 8, 9];

/// Paths in which a fault goes to each place; every other one has a fault at one place.
const EACH_PLACE: [usize; 6] = [1, 2, 127, 128, 254, 255];

/// Also answers how many files there were.
pub fn most(a: &dyn Engine, b: &dyn Engine) -> Result<usize, String> {
    Ok(in_chain(&mut Pair::new(a, b))? + among_64(&mut Pair::new(a, b))?)
}

fn in_chain(pair: &mut Pair) -> Result<usize, String> {
    let memory = network(chain());
    pair.restore(&memory.state, &memory.tables);
    let mut files = 0;
    let mut expect = |trace: Vec<u8>, answer| {
        files += 1;
        expect(pair, Call::Trace { trace }, answer)
    };
    expect(trace_file(&vec![WAY.to_vec(); PATHS]), 0)?;
    for path in 1..=PATHS {
        let places = match EACH_PLACE.contains(&path) {
            true => 1..=9,
            false => 1 + path % 9..=1 + path % 9,
        };
        for place in places {
            let named = (place as u64) << 16 | (path as u64) << 8;
            let number = [0, 10, 64, 65, 255][path % 5];
            expect(without(path, place, number), named | 9)?;
            if place < 9 {
                expect(stopping(path, place), named | 23)?;
            }
        }
    }
    for trace in overlong() {
        expect(trace, 22)?;
    }
    Ok(files)
}

/// Different paths: all of them, and each alone made to stay somewhere on its way.
fn among_64(pair: &mut Pair) -> Result<usize, String> {
    let (memory, paths) = long_ways();
    pair.restore(&memory.state, &memory.tables);
    let trace = trace_file(&paths);
    expect(pair, Call::Trace { trace }, 0)?;
    for path in 1..=PATHS {
        let step = 1 + path % 7;
        let mut wrong = paths.clone();
        wrong[path - 1][step] = wrong[path - 1][step - 1];
        let trace = trace_file(&wrong);
        let named = (step as u64) << 16 | (path as u64) << 8;
        expect(pair, Call::Trace { trace }, named | 23)?;
    }
    Ok(1 + PATHS)
}

/// The file with another number at this place of this path.
fn without(path: usize, place: usize, number: u8) -> Vec<u8> {
    let mut paths = vec![WAY.to_vec(); PATHS];
    paths[path - 1][place - 1] = number;
    trace_file(&paths)
}

/// The file in which this path stays at this place; of the paths behind it none but the last is allowed either.
fn stopping(path: usize, step: usize) -> Vec<u8> {
    let mut paths = vec![WAY.to_vec(); PATHS];
    for path in &mut paths[path - 1..PATHS - 1] {
        path.swap(0, 1);
    }
    let mut way = WAY;
    way[step] = way[step - 1];
    paths[path - 1] = way.to_vec();
    trace_file(&paths)
}

/// One path more than is counted, also where the count has gone round to 0, and files of zeros.
fn overlong() -> Vec<Vec<u8>> {
    let one = trace_file(&[WAY.to_vec()]);
    let full = trace_file(&vec![WAY.to_vec(); PATHS]);
    let more = [&full[..], &one[1..]].concat();
    let round = [&[0], &more[1..]].concat();
    let zeros = [2, 2_552, 65_535, 65_536, 70_000].map(|length| vec![0; length]);
    [more, round].into_iter().chain(zeros).collect()
}
