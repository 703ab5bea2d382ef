//! Faults put into a path, so that the number and the place of each are known.

use crate::failures::Literal;
use crate::lent::Lent;
use crate::random::no_nodes;
use crate::second::memory::COUNT;
use crate::second::LONGEST_PATH;

/// One path as it stands in a file, its count first.
#[derive(Clone, Debug)]
pub struct Piece {
    pub bytes: Vec<u8>,
    /// Of an allowed path none.
    pub fault: Option<Fault>,
}

/// What is wrong with a path: the number that it is refused by, and the place or the step, 0 for none.
#[derive(Clone, Copy, Debug)]
pub struct Fault {
    pub kind: &'static str,
    pub refusal: u64,
    pub place: u64,
}

/// Every kind of fault.
pub const KINDS: [&str; 10] = [
    "no nodes",
    "ten nodes",
    "255 nodes",
    "no node",
    "no node behind a wrong step",
    "the destination again",
    "past the destination and back",
    "stays",
    "another node",
    "straight to the destination",
];

impl Piece {
    pub fn right(path: &[u8]) -> Piece {
        let count = path.len() as u8;
        Piece {
            bytes: [&[count], path].concat(),
            fault: None,
        }
    }

    fn wrong(path: &[u8], kind: &'static str, refusal: u64, place: usize) -> Piece {
        let place = place as u64;
        Piece {
            fault: Some(Fault {
                kind,
                refusal,
                place,
            }),
            ..Piece::right(path)
        }
    }
}

/// An allowed path with each fault that it can have, one at a time.
pub fn faults(memory: &Lent, path: &[u8]) -> Vec<Piece> {
    let lists = [
        counts(path),
        numbers(memory, path),
        past_the_destination(memory, path),
        other_nodes(memory, path),
    ];
    let all = lists.into_iter().flatten();
    let fits = |piece: &Piece| {
        let counts = piece.fault.is_some_and(|fault| fault.refusal == 22);
        counts || piece.bytes[0] <= LONGEST_PATH
    };
    all.filter(fits).collect()
}

/// Counts that no path may have, each with so many numbers.
fn counts(path: &[u8]) -> Vec<Piece> {
    let cases = [(0, KINDS[0]), (10, KINDS[1]), (255, KINDS[2])];
    let wrong = |(count, kind)| {
        let numbers: Vec<u8> = path.iter().copied().cycle().take(count).collect();
        Piece::wrong(&numbers, kind, 22, 0)
    };
    cases.map(wrong).into()
}

/// Each number of the path made one that no node has; also at the end of a path whose first step goes nowhere.
fn numbers(memory: &Lent, path: &[u8]) -> Vec<Piece> {
    let mut all = vec![];
    for number in no_nodes(memory.state[COUNT]) {
        for place in 1..=path.len() {
            let mut wrong = path.to_vec();
            wrong[place - 1] = number;
            all.push(Piece::wrong(&wrong, KINDS[3], 9, place));
        }
        let wrong = [&path[..1], path, &[number]].concat();
        all.push(Piece::wrong(&wrong, KINDS[4], 9, wrong.len()));
    }
    all
}

/// The destination twice, and by way of each node.
fn past_the_destination(memory: &Lent, path: &[u8]) -> Vec<Piece> {
    let end = &path[path.len() - 1..];
    let again = Piece::wrong(&[path, end].concat(), KINDS[5], 23, path.len());
    let by_way = (1..=memory.state[COUNT] as u8).map(|node| {
        let wrong = [path, &[node], end].concat();
        Piece::wrong(&wrong, KINDS[6], 23, path.len())
    });
    [again].into_iter().chain(by_way).collect()
}

/// A step to where it is, to a node that the entry does not hold, or to the destination where that is one.
fn other_nodes(memory: &Lent, path: &[u8]) -> Vec<Piece> {
    let destination = path[path.len() - 1];
    let literal = Literal::new(memory, 0);
    let mut all = vec![];
    for step in 1..path.len() {
        let (behind, ahead) = path.split_at(step);
        let at = path[step - 1];
        let entry = literal.entry(at.into(), destination.into());
        let stays = [behind, &[at], ahead].concat();
        all.push(Piece::wrong(&stays, KINDS[7], 23, step));
        let others = (1..=memory.state[COUNT] as u8).filter(|&node| !entry.contains(&node.into()));
        for node in others.filter(|_| ahead.len() > 1) {
            let wrong = [behind, &[node], &ahead[1..]].concat();
            all.push(Piece::wrong(&wrong, KINDS[8], 23, step));
        }
        if !entry.contains(&destination.into()) {
            let straight = [behind, &[destination]].concat();
            all.push(Piece::wrong(&straight, KINDS[9], 23, step));
        }
    }
    all
}
