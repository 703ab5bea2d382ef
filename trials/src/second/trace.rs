//! Checking a trace: paths that another router has taken, each step held against the entry that the lookup rule names there.

use super::answers::{Answer, TraceAnswer};
use super::lookup::entry_towards;
use super::memory::Tables;
use super::network::Network;
use super::refusal::Refusal;
use super::soundness::lent_and_sound;

/// The most nodes of a path: its start, and as many hops as an id may have digits.
pub const LONGEST_PATH: u8 = 9;

/// Why a trace is declined, and the path and the place or step for which it is, counted from 1; zeros for none.
struct Declined {
    refusal: Refusal,
    path: usize,
    place: usize,
}

impl From<Refusal> for Declined {
    fn from(refusal: Refusal) -> Declined {
        Declined {
            refusal,
            path: 0,
            place: 0,
        }
    }
}

pub fn trace(state: &[u64], tables: &[u8], trace: &[u8]) -> TraceAnswer {
    match try_trace(state, tables, trace) {
        Ok(()) => TraceAnswer::default(),
        Err(Declined {
            refusal,
            path,
            place,
        }) => TraceAnswer {
            path: path as u64,
            place: place as u64,
            ..TraceAnswer::refused(refusal)
        },
    }
}

fn try_trace(state: &[u64], tables: &[u8], trace: &[u8]) -> Result<(), Declined> {
    let (state, tables) = lent_and_sound(state, tables)?;
    let network = Network::decode(state);
    let paths = paths_of(trace).ok_or(Refusal::TraceCounts)?;
    judge_numbers(&network, &paths)?;
    judge_steps(&network, tables, &paths)
}

/// Sentence 22: the paths, if all counts are there, in range, and give exactly the length.
fn paths_of(trace: &[u8]) -> Option<Vec<&[u8]>> {
    let (&count, mut rest) = trace.split_first()?;
    let mut paths = vec![];
    for _ in 0..count {
        let (&nodes, behind) = rest.split_first()?;
        if !(1..=LONGEST_PATH).contains(&nodes) {
            return None;
        }
        let (path, behind) = behind.split_at_checked(nodes.into())?;
        paths.push(path);
        rest = behind;
    }
    rest.is_empty().then_some(paths)
}

/// Sentence 9, at the first place in the file.
fn judge_numbers(network: &Network, paths: &[&[u8]]) -> Result<(), Declined> {
    for (path, nodes) in (1..).zip(paths) {
        for (place, &node) in (1..).zip(*nodes) {
            network.number(node.into()).map_err(|refusal| Declined {
                refusal,
                path,
                place,
            })?;
        }
    }
    Ok(())
}

/// Sentence 23, at the first step in the file. Every number is a node's.
fn judge_steps(network: &Network, tables: &Tables, paths: &[&[u8]]) -> Result<(), Declined> {
    for (path, nodes) in (1..).zip(paths) {
        let nodes: Vec<usize> = nodes.iter().map(|&node| node.into()).collect();
        let destination = nodes[nodes.len() - 1];
        for (step, ends) in (1..).zip(nodes.windows(2)) {
            if !allowed(network, tables, [ends[0], ends[1]], destination) {
                return Err(Declined {
                    refusal: Refusal::StepNotAllowed,
                    path,
                    place: step,
                });
            }
        }
    }
    Ok(())
}

/// May a path to this destination step from one node to the other? Not past the destination, and else to any node of the entry.
fn allowed(network: &Network, tables: &Tables, [at, next]: [usize; 2], destination: usize) -> bool {
    at != destination && entry_towards(network, tables, [at, destination]).contains(next)
}
