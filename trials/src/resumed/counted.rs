//! Ticket 3's two counts in a run that starts with an image of version 2: for a node that was not begun in it, what the image has and what the run adds.

use crate::met::{meet, Met};
use crate::random::{before_joins, joins};
use crate::script::{Call, Line};
use crate::second::memory::{State, MOST_NODES};

pub struct Counted {
    /// What the image has for each number, n's at n − 1; nothing for a number that is begun in this run or withdrawn.
    restored: [[u64; 2]; MOST_NODES],
    /// What each has sent in this run, since its latest beginning in it.
    own: [[u64; 2]; MOST_NODES],
    /// A founding or another reading has ended the run.
    over: bool,
    begun: usize,
    added: usize,
}

impl Counted {
    /// After an image of version 2 that was taken.
    pub fn from_image(image: &[u8]) -> Counted {
        let behind = before_joins(image).expect("it has its counts");
        let panels = joins(&image[behind..]).expect("it has its counts").panels;
        let mut restored = [[0; 2]; MOST_NODES];
        for (both, panel) in restored.iter_mut().zip(panels) {
            *both = panel.map(u64::from);
        }
        Counted {
            restored,
            own: [[0; 2]; MOST_NODES],
            over: false,
            begun: 0,
            added: 0,
        }
    }

    /// Notes what a line did; the state has the counts that it must.
    pub fn note(&mut self, line: &Line, answer: u64, state: &State) -> Result<(), String> {
        if let (Line::Call(call), 0) = (line, answer & 0xff) {
            self.taken(call, answer >> 8);
        }
        for node in (1..=MOST_NODES).filter(|_| !self.over) {
            let place = node - 1;
            let sum = [0, 1].map(|count| self.restored[place][count] + self.own[place][count]);
            let stands = [state[8 * node + 6], state[8 * node + 7]];
            if stands != sum {
                return Err(format!("node {node} has {stands:?}, and sent {sum:?}"));
            }
        }
        Ok(())
    }

    fn taken(&mut self, call: &Call, answered: u64) {
        match *call {
            Call::Found { .. } | Call::Read { .. } => self.over = true,
            Call::Begin { .. } => self.start(answered, 1),
            Call::Withdraw { node } => self.start(node, 0),
            Call::Deliver { sender, .. } if !self.over => {
                let place = (sender as usize).wrapping_sub(1).min(MOST_NODES - 1);
                match answered & 0xff {
                    1 | 2 => self.own[place][0] += 1,
                    4 => self.own[place][1] += 1,
                    _ => {}
                }
                self.added += usize::from(self.restored[place] != [0; 2]);
            }
            _ => {}
        }
    }

    /// A number is given in this run, with so many requests, or is free again.
    fn start(&mut self, node: u64, requests: u64) {
        let place = (node as usize).wrapping_sub(1);
        if place < MOST_NODES {
            self.restored[place] = [0; 2];
            self.own[place] = [requests, 0];
            self.begun += requests as usize;
        }
    }

    /// Nodes begun in this run, and deliveries that added to what was restored.
    pub fn meet(&self, met: &mut Met) {
        (0..self.begun).for_each(|_| meet(met, "begun after the stop"));
        (0..self.added).for_each(|_| meet(met, "added to restored counts"));
    }
}
