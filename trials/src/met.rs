//! How often a trial has met something; one that meets too little shows too little.

use std::collections::BTreeMap;

pub type Met = BTreeMap<&'static str, usize>;

/// Has each of these been met so often?
pub fn met_enough(met: &Met, times: usize, all: &[&str]) -> bool {
    all.iter()
        .all(|what| met.get(what).is_some_and(|&met| met >= times))
}

pub fn meet(met: &mut Met, what: &'static str) {
    *met.entry(what).or_default() += 1;
}
