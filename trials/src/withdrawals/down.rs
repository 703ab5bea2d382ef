//! With many joins in flight the highest-numbered node is withdrawn, then the next, down to one that has attached.

use super::expected::{refusal, without_highest};
use super::steps::{beginning, call, delivery_of_others, expect, network};
use super::{meet, Met};
use crate::compare::{same_network, Pair};
use crate::engine::{Engine, Second};
use crate::lent::Lent;
use crate::random::{seeds, Rng};
use crate::script::Call;

const SETTINGS: [[u64; 3]; 5] = [[2, 7, 1], [2, 8, 3], [4, 4, 2], [16, 2, 1], [16, 8, 4]];

pub fn down(a: &dyn Engine, b: &dyn Engine) -> Result<Met, String> {
    let mut met = Met::new();
    for (seed, settings) in seeds(2_000, 20).zip(SETTINGS.into_iter().cycle()) {
        let mut run = Run {
            pair: Pair::new(a, b),
            rng: Rng::new(seed),
            calls: vec![],
        };
        run.play(settings, &mut met)
            .map_err(|what| format!("seed {seed}: {what}"))?;
    }
    Ok(met)
}

/// A run, and its taken beginnings and deliveries, each with the node that it is of.
struct Run<'a> {
    pair: Pair<'a>,
    rng: Rng,
    calls: Vec<(u64, Call)>,
}

impl Run<'_> {
    /// Grows, withdraws, and grows again to the same size. What is left in between is what the calls of the other nodes alone make.
    fn play(&mut self, settings: [u64; 3], met: &mut Met) -> Result<(), String> {
        let founding = Call::Found { settings, id: 0 };
        expect(&mut self.pair, founding.clone(), 0)?;
        let nodes = self.rng.pick(&[10, 30, 64]);
        self.grow(nodes)?;
        let left = self.withdraw(met)?;
        let mut never = Lent::noise();
        never.call(&Second, &founding);
        let of_others = self.calls.iter().filter(|(node, _)| *node <= left);
        for (_, call) in of_others {
            never.call(&Second, call);
        }
        same_network(["never begun", "withdrawn"], &never, self.pair.memory())?;
        self.grow(nodes)?;
        while self.deliver()? {}
        Ok(())
    }

    /// Begins and delivers in any order until there are so many nodes, and delivers some more.
    fn grow(&mut self, nodes: usize) -> Result<(), String> {
        let pace = self.rng.pick(&[2, 4, 8]);
        while network(&self.pair).count() < nodes {
            if self.rng.once_in(pace) || !self.deliver()? {
                let begin = beginning(&mut self.rng, &network(&self.pair));
                self.take(begin.expect("there are more ids than nodes"))?;
            }
        }
        for _ in 0..self.rng.below(40) {
            self.deliver()?;
        }
        Ok(())
    }

    /// Delivers an outstanding request, if there is one.
    fn deliver(&mut self) -> Result<bool, String> {
        let made = delivery_of_others(&mut self.rng, &network(&self.pair), 0);
        let outstanding = made.is_some();
        made.map_or(Ok(()), |made| self.take(made))?;
        Ok(outstanding)
    }

    /// A beginning gives the next number, and a delivery is taken or held.
    fn take(&mut self, made: Call) -> Result<(), String> {
        let next = network(&self.pair).count() as u64 + 1;
        let answer = call(&mut self.pair, made.clone())?;
        let node = match made {
            Call::Deliver { sender, .. } => sender,
            _ => next,
        };
        match (&made, answer & 0xff) {
            (Call::Deliver { .. }, 14) => return Ok(()),
            (Call::Deliver { .. }, 0) => {}
            _ if answer == next << 8 => {}
            _ => return Err(format!("{made}: {answer:#x}")),
        }
        self.calls.push((node, made));
        Ok(())
    }

    /// Before each withdrawal some other nodes are refused 19; answers the highest-numbered that is left.
    fn withdraw(&mut self, met: &mut Met) -> Result<u64, String> {
        for row in 0.. {
            let memory = self.pair.memory();
            let highest = network(&self.pair).count() as u64;
            let (expected, answer) = (
                without_highest(memory),
                refusal(memory.used_state(), highest),
            );
            let others = [1, highest - 1, self.rng.between(1, highest)];
            for node in others
                .into_iter()
                .filter(|node| (1..highest).contains(node))
            {
                expect(&mut self.pair, Call::Withdraw { node }, 19)?;
            }
            expect(&mut self.pair, Call::Withdraw { node: highest }, answer)?;
            if answer != 0 {
                meet(met, if row > 3 { "four in a row" } else { "fewer" });
                return Ok(highest);
            }
            same_network(["expected", "withdrawn"], &expected, self.pair.memory())?;
            expect(&mut self.pair, Call::Sound, 0)?;
            meet(met, "withdrawn");
        }
        unreachable!("node 1 is in system")
    }
}
