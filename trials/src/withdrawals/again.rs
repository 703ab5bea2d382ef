//! One number, begun and withdrawn more often than a node sends requests: its counts start again at each beginning.

use super::steps::{call, expect, COPIED};
use super::{meet, Met};
use crate::compare::Pair;
use crate::engine::Engine;
use crate::panel::panel;
use crate::script::Call;
use crate::second::network::Panel;

/// With each number of digits.
pub fn again(a: &dyn Engine, b: &dyn Engine) -> Result<Met, String> {
    let mut met = Met::new();
    for digits in 1..=8 {
        let mut rounds = Rounds {
            pair: Pair::new(a, b),
            digits,
        };
        rounds
            .play(&mut met)
            .map_err(|what| format!("{digits} digits: {what}"))?;
    }
    Ok(met)
}

struct Rounds<'a> {
    pair: Pair<'a>,
    digits: u64,
}

impl Rounds<'_> {
    /// The number that is given again and again.
    fn number(&self) -> u64 {
        self.digits + 1
    }

    /// Begins and withdraws, after all numbers of deliveries that do not attach the node, three times; then lets it join.
    fn play(&mut self, met: &mut Met) -> Result<(), String> {
        let (digits, node) = (self.digits, self.number());
        self.chain()?;
        for round in 0..3 * (digits + 1) {
            let deliveries = round % (digits + 1);
            self.join(node, deliveries)?;
            expect(&mut self.pair, Call::Withdraw { node }, 0)?;
            self.counted(node, deliveries + 1, Panel::default())?;
            meet(met, "withdrawn");
            if deliveries == digits {
                meet(met, "after d + 1 requests");
            }
        }
        self.join(node, digits)?;
        self.attach(node)
    }

    /// Nodes 1 to d, the ids of which have 0 to d − 1 digits 1 on the right. The next such node copies from each of them in turn, and waits for the
    /// last: d + 1 requests.
    fn chain(&mut self) -> Result<(), String> {
        let settings = [2, self.digits, 1];
        expect(&mut self.pair, Call::Found { settings, id: 0 }, 0)?;
        for node in 2..=self.digits {
            self.join(node, node - 1)?;
            self.attach(node)?;
        }
        Ok(())
    }

    /// Begins by node 1 and copies from so many nodes; the counts are right after each step.
    fn join(&mut self, node: u64, deliveries: u64) -> Result<(), String> {
        let id = (0x1111_1111_u64 >> (4 * (9 - node))) as u32;
        let gateway = 1;
        expect(&mut self.pair, Call::Begin { id, gateway }, node << 8)?;
        self.joining(node, 1)?;
        for receiver in 1..=deliveries {
            let delivery = Call::Deliver {
                sender: node,
                receiver,
            };
            expect(&mut self.pair, delivery, COPIED)?;
            self.joining(node, receiver + 1)?;
        }
        Ok(())
    }

    /// The wait for the node before it; nobody is left to be asked.
    fn attach(&mut self, sender: u64) -> Result<(), String> {
        let receiver = sender - 1;
        let answer = call(&mut self.pair, Call::Deliver { sender, receiver })?;
        if answer & 0xff00_ffff != 0x0100_0300 {
            return Err(format!("node {sender} is answered {answer:#x}"));
        }
        self.joining(sender, sender)
    }

    fn joining(&self, node: u64, requests: u64) -> Result<(), String> {
        let notices = 0;
        self.counted(node, requests, Panel { requests, notices })
    }

    /// By the history the number has sent so many requests, and nobody more than d + 1; the state has these counts for it.
    fn counted(&self, node: u64, requests: u64, stands: Panel) -> Result<(), String> {
        let sent: Vec<u64> = self.pair.history().requests().collect();
        let found = panel(self.pair.memory().used_state(), node as usize);
        let few = sent.iter().all(|&sent| sent <= self.digits + 1);
        if sent[node as usize - 1] != requests || found != stands || !few {
            return Err(format!(
                "node {node} with {requests} requests: {sent:?}, {found:?}"
            ));
        }
        Ok(())
    }
}
