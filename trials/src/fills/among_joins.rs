//! Fillings at any point of runs with joins and withdrawals: while a node joins they are refused 15 and change nothing. After the first that is taken the
//! network has passed the verdict, and no later call changes the very hops of a lookup between the nodes of that point.

use super::networks::settled;
use super::steps::{call, expect_kept, fill, meet_additions, network, restored};
use crate::compare::Pair;
use crate::engine::Engine;
use crate::failures::{lookups, stands, step_on, Kept};
use crate::met::{meet, Met};
use crate::random::{seeds, Rng};
use crate::script::Call;
use crate::steps::delivery_of_others;

pub fn among_joins(a: &dyn Engine, b: &dyn Engine) -> Result<Met, String> {
    let mut met = Met::new();
    for seed in seeds(3_000, 40) {
        let mut rng = Rng::new(seed);
        let memory = settled(&mut rng, 9);
        let mut run = Run {
            pair: Pair::new(a, b),
            engines: [a, b],
            rng,
            kept: vec![],
        };
        restored(&mut run.pair, &memory)
            .and_then(|()| run.play(&mut met))
            .map_err(|what| format!("seed {seed}: {what}"))?;
    }
    Ok(met)
}

struct Run<'a> {
    pair: Pair<'a>,
    engines: [&'a dyn Engine; 2],
    rng: Rng,
    /// Lookups since the network has passed.
    kept: Vec<Kept>,
}

impl Run<'_> {
    fn play(&mut self, met: &mut Met) -> Result<(), String> {
        let most = 64.min(network(&self.pair).count() + 6);
        for step in 0..60 {
            step_on(&mut self.pair, &mut self.rng, most, met)?;
            if self.rng.once_in(4) {
                self.fill(met)?;
            }
            self.stand(step)?;
        }
        self.settle()?;
        self.fill(met)?;
        (0..16).try_for_each(|step| self.stand(step))
    }

    /// Taken where all have settled.
    fn fill(&mut self, met: &mut Met) -> Result<(), String> {
        if !network(&self.pair).all_in_system() {
            meet(met, "refused 15");
            return expect_kept(&mut self.pair, Call::Fill, 15);
        }
        let list = fill(&mut self.pair)?;
        meet_additions(met, list.len());
        if self.kept.is_empty() {
            self.kept = lookups(&mut self.rng, self.pair.memory());
            self.kept.truncate(2_000);
        }
        Ok(())
    }

    /// A sixteenth of the lookups.
    fn stand(&mut self, step: usize) -> Result<(), String> {
        let mut memory = self.pair.memory().clone();
        let mut some = self.kept.iter().skip(step % 16).step_by(16);
        some.try_for_each(|kept| stands(self.engines, &mut memory, kept))
    }

    fn settle(&mut self) -> Result<(), String> {
        while let Some(made) = delivery_of_others(&mut self.rng, &network(&self.pair), 0) {
            call(&mut self.pair, made)?;
        }
        Ok(())
    }
}
