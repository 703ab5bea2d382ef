//! Images of both versions that are read, filled and written in their own: those of version 2 keep their counts. With joins under way they are refused 15.

use super::expected::with_additions;
use super::steps::{call, expect, expect_kept, fill, image, restored as put_back};
use crate::compare::Pair;
use crate::engine::{Engine, Second};
use crate::lent::Lent;
use crate::met::{meet, Met};
use crate::panel::panels;
use crate::random::{image_2, seeds, thinned, Rng};
use crate::script::Call;

pub fn restored(a: &dyn Engine, b: &dyn Engine) -> Result<Met, String> {
    let mut met = Met::new();
    let mut pair = Pair::new(a, b);
    for seed in seeds(5_000, 60) {
        let rng = &mut Rng::new(seed);
        for image in [
            settled_image(rng, 1),
            settled_image(rng, 2),
            short_image(rng),
        ] {
            let is_right = is_right(&mut pair, &image, &mut met);
            is_right.map_err(|what| format!("seed {seed}: {what}"))?;
        }
    }
    Ok(met)
}

/// Of a settled network with counts.
fn settled_image(rng: &mut Rng, version: u64) -> Vec<u8> {
    let mut memory = super::settled(rng, 64);
    let length = (memory.call(&Second, &Call::Write { version }) >> 8) as usize;
    memory.out[..length].to_vec()
}

/// Of a state of any kind, mostly with joins under way.
fn short_image(rng: &mut Rng) -> Vec<u8> {
    let whole = image_2(rng);
    thinned(rng, &whole, 2)
}

fn is_right(pair: &mut Pair, before: &[u8], met: &mut Met) -> Result<(), String> {
    let (version, read) = (before[1].into(), before.to_vec());
    put_back(pair, &Lent::noise())?;
    expect(pair, Call::Read { image: read }, 0)?;
    let counts = panels(pair.memory().used_state());
    if call(pair, Call::Verdict)? == 15 {
        meet(met, "refused 15");
        return expect_kept(pair, Call::Fill, 15);
    }
    let list = fill(pair)?;
    let after = image(pair, version)?;
    if after != with_additions(before, &list) {
        return Err(format!(
            "version {version} is not the original with {list:?}"
        ));
    }
    if panels(pair.memory().used_state()) != counts {
        return Err("a count has changed".into());
    }
    meet(
        met,
        if version == 1 {
            "version 1"
        } else {
            "version 2"
        },
    );
    expect(pair, Call::Read { image: after }, 0)?;
    expect_kept(pair, Call::Fill, 0)
}
