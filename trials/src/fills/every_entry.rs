//! Networks from empty entries to full ones: after a filling the verdict passes, the image is what it was with the listed records at the ends of their
//! entries, no word of the state has changed, and a second filling adds nothing.

use super::expected::with_additions;
use super::networks::settled;
use super::steps::{call, expect_kept, fill, image, meet_additions, restored};
use crate::compare::Pair;
use crate::engine::Engine;
use crate::met::{meet, Met};
use crate::one_join::CONSISTENT;
use crate::random::{seeds, Rng};
use crate::script::Call;

pub fn every_entry(a: &dyn Engine, b: &dyn Engine) -> Result<Met, String> {
    let mut met = Met::new();
    let mut pair = Pair::new(a, b);
    for seed in seeds(0, 150) {
        let memory = settled(&mut Rng::new(seed), 64);
        restored(&mut pair, &memory)?;
        let is_right = is_right(&mut pair, &mut met);
        is_right.map_err(|what| format!("seed {seed}: {what}"))?;
    }
    Ok(met)
}

fn is_right(pair: &mut Pair, met: &mut Met) -> Result<(), String> {
    let state = pair.memory().state.clone();
    let passed = call(pair, Call::Verdict)? == CONSISTENT;
    let [first, second] = [1, 2].map(|version| image(pair, version));
    let [first, second] = [first?, second?];
    let list = fill(pair)?;
    if pair.memory().state != state {
        return Err("a word of the state has changed".into());
    }
    if passed != list.is_empty() {
        return Err(format!("{list:?} added, passed before: {passed}"));
    }
    for (version, before) in [(1, first), (2, second)] {
        if image(pair, version)? != with_additions(&before, &list) {
            return Err(format!(
                "version {version} is not the original with {list:?}"
            ));
        }
    }
    meet_additions(met, list.len());
    meet(
        met,
        if passed {
            "passed before"
        } else {
            "short before"
        },
    );
    expect_kept(pair, Call::Fill, 0)
}
