//! What one failure costs in hops, by the surveys of an engine.

use crate::engine::Engine;
use crate::lent::Lent;
use crate::script::{set_of, Call};
use crate::second::memory::COUNT;
use crate::second::{Counts, LOST};
use crate::surveys::place;

/// What surveys and lookups of one network count.
pub struct Cost {
    /// Nobody has failed.
    pub none: Counts,
    /// Each node alone has, all together: every pair counts once for each other node.
    pub alone: Counts,
    /// The failure that costs most, in lost pairs or else in the mean of the hops.
    pub worst: Failure,
}

/// One node fails: the pairs of the others, before and after.
#[derive(Clone, Copy, Default)]
pub struct Failure {
    pub node: u64,
    pub before: Counts,
    pub after: Counts,
}

pub fn cost(engine: &dyn Engine, memory: &mut Lent) -> Cost {
    let none = surveyed(engine, memory, 0);
    let failures: Vec<Failure> = (1..=memory.state[COUNT])
        .map(|node| Failure {
            node,
            before: of_others(engine, memory, node, &none),
            after: surveyed(engine, memory, set_of(&[node])),
        })
        .collect();
    let mut alone = Counts::default();
    for failure in &failures {
        let sums = alone.iter_mut().zip(failure.after);
        sums.for_each(|(sum, count)| *sum += count);
    }
    let worst = failures.into_iter().reduce(Failure::worse);
    let worst = worst.expect("a network has a node");
    Cost { none, alone, worst }
}

impl Failure {
    /// More lost pairs, or else a higher mean; of two that cost the same the first.
    fn worse(self, other: Failure) -> Failure {
        let (ours, theirs) = (self.lost(), other.lost());
        let more = theirs > ours || theirs == ours && other.longer() > self.longer();
        if more {
            other
        } else {
            self
        }
    }

    /// How many pairs it loses; a failure may also let some arrive that were lost.
    fn lost(&self) -> i64 {
        self.after[LOST] as i64 - self.before[LOST] as i64
    }

    fn longer(&self) -> f64 {
        mean(&self.after) - mean(&self.before)
    }
}

/// The mean number of hops of the pairs that arrive; 0 where none does.
pub fn mean(counts: &Counts) -> f64 {
    let arrived: u64 = counts[..LOST].iter().sum();
    let hops = (1..).zip(&counts[..LOST]);
    let hops: u64 = hops.map(|(hops, count)| hops * count).sum();
    hops as f64 / arrived.max(1) as f64
}

fn surveyed(engine: &dyn Engine, memory: &mut Lent, failed: u64) -> Counts {
    assert_eq!(memory.call(engine, &Call::Survey { failed }), 0);
    *memory.used_counts()
}

/// Of the pairs while nobody has failed those of other nodes than this.
fn of_others(engine: &dyn Engine, memory: &mut Lent, node: u64, none: &Counts) -> Counts {
    let mut counts = *none;
    for other in (1..=memory.state[COUNT]).filter(|&other| other != node) {
        for (from, to) in [(node, other), (other, node)] {
            let failed = 0;
            let answer = memory.call(engine, &Call::Lookup { from, to, failed });
            counts[place(answer)] -= 1;
        }
    }
    counts
}
