//! Traces: paths that a router may take, and files of them, good and damaged.

use super::{failed_set, Rng};
use crate::failures::Literal;
use crate::lent::Lent;
use crate::script::set_of;
use crate::second::memory::COUNT;

/// The numbers of a path's nodes, the destination last.
pub type Path = Vec<u8>;

/// The file of these paths, of which there are at most 255, each of at most 255 nodes.
pub fn trace_file(paths: &[Path]) -> Vec<u8> {
    let mut file = vec![paths.len() as u8];
    for path in paths {
        file.push(path.len() as u8);
        file.extend(path);
    }
    file
}

/// So many paths that are allowed in a sound state.
pub fn paths(rng: &mut Rng, memory: &Lent, count: usize) -> Vec<Path> {
    let any = |rng: &mut Rng| rng.between(1, memory.state[COUNT]);
    let path = |_| {
        let ends = [any(rng), any(rng)];
        let wandered = wandering(rng, memory, ends);
        match rng.below(4) {
            0 => wandered,
            1 => part(rng, &wandered),
            _ => looked_up(rng, memory, ends),
        }
    };
    (0..count).map(path).collect()
}

/// The way of a lookup around some failed nodes; a lost one ends where it is lost.
fn looked_up(rng: &mut Rng, memory: &Lent, [from, to]: [u64; 2]) -> Path {
    let failed = failed_set(rng, memory.state[COUNT] as usize) & !set_of(&[from, to]);
    path_of(&Literal::new(memory, failed).way(from, to).nodes)
}

/// By any node of each entry, until the destination is there or an entry is empty.
pub fn wandering(rng: &mut Rng, memory: &Lent, [from, to]: [u64; 2]) -> Path {
    let literal = Literal::new(memory, 0);
    let mut nodes = vec![from];
    let mut at = from;
    loop {
        let entry = literal.entry(at, to);
        if entry.is_empty() {
            return path_of(&nodes);
        }
        at = rng.pick(&entry);
        nodes.push(at);
    }
}

/// Some nodes of a path that follow one another.
pub fn part(rng: &mut Rng, path: &[u8]) -> Path {
    let from = rng.below(path.len());
    let length = 1 + rng.below(path.len() - from);
    path[from..][..length].to_vec()
}

pub fn path_of(nodes: &[u64]) -> Path {
    nodes.iter().map(|&node| node as u8).collect()
}

/// Numbers that none of so many nodes has, in a byte.
pub fn no_nodes(count: u64) -> Vec<u8> {
    let past = [0, count as u8 + 1, 64, 65, 128 + count as u8, 255];
    let no_node = |&number: &u8| u64::from(number) > count || number == 0;
    past.into_iter().filter(no_node).collect()
}

/// A file of these paths, mostly with one damage or more.
pub fn damaged_trace(rng: &mut Rng, paths: &[Path], count: u64) -> Vec<u8> {
    let mut paths = paths.to_vec();
    for _ in 0..rng.pick(&[1, 1, 2]) {
        if !paths.is_empty() && rng.below(3) > 0 {
            let place = rng.below(paths.len());
            damage_path(rng, &mut paths[place], count);
        }
    }
    let mut file = trace_file(&paths);
    match rng.below(12) {
        0 => file.truncate(rng.below(file.len())),
        1 => file.push(rng.pick(&[0, 1, 255])),
        2 => file.resize(file.len() + rng.pick(&[2, 300, 70_000]), rng.word() as u8),
        3 => file[0] = file[0].wrapping_add(rng.pick(&[1, 255])),
        4 => {
            let place = rng.below(file.len());
            let any = rng.word() as u8;
            file[place] = rng.pick(&[0, 1, 9, 10, 255, any]);
        }
        _ => {}
    }
    file
}

/// Changes the numbers of a path, or how many there are.
fn damage_path(rng: &mut Rng, path: &mut Path, count: u64) {
    let Some(&destination) = path.last() else {
        return;
    };
    let place = rng.below(path.len());
    match rng.below(8) {
        0 | 1 => path[place] = rng.pick(&no_nodes(count)),
        2 => path[place] = rng.between(1, count) as u8,
        3 => path.push(destination),
        4 => path.extend([rng.between(1, count) as u8, destination]),
        5 => path.insert(place, path[place]),
        6 => path.reverse(),
        _ => path.resize(rng.pick(&[0, 10, 255]), destination),
    }
}
