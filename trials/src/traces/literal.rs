//! What checking a trace must answer in a sound state, read from the file's bytes one by one, and from the words and bytes of the state.

use std::ops::RangeInclusive;

use crate::failures::Literal;
use crate::lent::Lent;
use crate::second::memory::COUNT;

/// One number of a file. Paths and places count from 1.
pub struct Passed {
    pub path: u64,
    pub place: u64,
    pub node: u64,
    /// The number behind it in its path; none behind the last.
    pub next: Option<u64>,
    /// The last number of its path.
    pub destination: u64,
}

/// Every number of a file in order, whose paths have so many nodes; None if its counts are not right.
pub fn passed(trace: &[u8], counts: RangeInclusive<usize>) -> Option<Vec<Passed>> {
    let mut all = vec![];
    let mut at = 1;
    for path in 1..=u64::from(*trace.first()?) {
        let nodes = usize::from(*trace.get(at)?);
        let last = at + nodes;
        if !counts.contains(&nodes) || last >= trace.len() {
            return None;
        }
        for here in at + 1..=last {
            all.push(Passed {
                path,
                place: (here - at) as u64,
                node: trace[here].into(),
                next: (here < last).then(|| trace[here + 1].into()),
                destination: trace[last].into(),
            });
        }
        at = last + 1;
    }
    (at == trace.len()).then_some(all)
}

/// The packed answer.
pub fn judged(memory: &Lent, trace: &[u8]) -> u64 {
    let Some(all) = passed(trace, 1..=9) else {
        return 22;
    };
    let nodes = 1..=memory.state[COUNT].min(64);
    if let Some(no_node) = all.iter().find(|passed| !nodes.contains(&passed.node)) {
        return no_node.refused(9);
    }
    let literal = Literal::new(memory, 0);
    let not_allowed = |passed: &&Passed| match passed.next {
        Some(next) => !literal
            .entry(passed.node, passed.destination)
            .contains(&next),
        None => false,
    };
    all.iter()
        .find(not_allowed)
        .map_or(0, |step| step.refused(23))
}

impl Passed {
    /// The packed answer that names it, or the step that leaves it.
    pub fn refused(&self, refusal: u64) -> u64 {
        self.place << 16 | self.path << 8 | refusal
    }
}
