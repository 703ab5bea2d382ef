//! What an exporter may do: the records of one node come last.

use super::{networks, Judged};

/// For each node its records moved to the end. Then the first of these is below the one before it; but the last node's are there already.
pub fn moved() -> Vec<Judged> {
    let mut all = vec![];
    for whole in networks() {
        let last = whole.ids.len() as u8;
        for node in 1..=last {
            let of_node = |record: &[u8; 4]| record[0] == node;
            let (moved, mut records): (Vec<_>, Vec<_>) =
                whole.records.iter().copied().partition(of_node);
            let place = records.len() + 1;
            records.extend(moved);
            let (refusal, place) = if node == last { (0, 0) } else { (10, place) };
            let name = format!("node {node} of {last} last, {:?}", whole.settings);
            all.push(whole.holding(records).judged(name, refusal, place));
        }
    }
    all
}
