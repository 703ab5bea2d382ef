//! A run's history, as far as it counts.

use super::panels;
use crate::script::{Call, Line};
use crate::second::memory::{State, MOST_NODES};
use crate::second::network::Panel;

/// The counts by the calls of a run and their answers, each number's from its latest beginning on; the memory is looked at only where a hand has
/// changed it.
#[derive(Clone, Debug, PartialEq, Eq, Hash)]
pub struct History {
    /// Number n's at n − 1. A withdrawn number keeps its own until it is given again.
    panels: [Panel; MOST_NODES],
    /// Which numbers are withdrawn and not given again; n's at n − 1.
    withdrawn: [bool; MOST_NODES],
}

impl History {
    /// From a memory as it stands, before any call: each node starts with what it has there.
    pub fn from_here(state: &State) -> History {
        History {
            panels: panels(state),
            withdrawn: [false; MOST_NODES],
        }
    }

    /// Before any call of a run: nobody has sent anything.
    fn new() -> History {
        History {
            panels: [Panel::default(); MOST_NODES],
            withdrawn: [false; MOST_NODES],
        }
    }

    /// After a reading: of version 1 nobody has sent anything, of version 2 each node starts with its counts at the image's end.
    fn read_in(image: &[u8]) -> History {
        let mut history = History::new();
        let nodes = match image {
            [4, 2, _, _, _, nodes, ..] => usize::from(*nodes),
            _ => 0,
        };
        let start = image.len().saturating_sub(2 * nodes);
        let counts = image[start..].chunks_exact(2);
        for (panel, counts) in history.panels.iter_mut().zip(counts) {
            *panel = Panel {
                requests: counts[0].into(),
                notices: counts[1].into(),
            };
        }
        history
    }

    /// Notes what a line did: a call by its answer, a change of a word by the memory after it.
    pub fn note(&mut self, line: &Line, answer: u64, after: &State) {
        match line {
            Line::Call(call) if answer & 0xff == 0 => self.taken(call, answer >> 8),
            Line::Word { .. } => *self = History::from_here(after),
            _ => {}
        }
    }

    /// A founding or a reading starts a new run. A beginning sends its new node's first request, and a delivery
    /// that was copied or sent on its sender's next one; one that was notified answers its sender's notice. A withdrawal sends nothing, nor does a
    /// filling.
    fn taken(&mut self, call: &Call, answered: u64) {
        match call {
            Call::Found { .. } => *self = History::new(),
            Call::Read { image } => *self = History::read_in(image),
            Call::Begin { .. } => self.begin(answered),
            Call::Withdraw { node } => self.withdraw(*node),
            Call::Deliver { sender, .. } => match answered & 0xff {
                1 | 2 => self.add(*sender, 1, 0),
                4 => self.add(*sender, 0, 1),
                _ => {}
            },
            _ => {}
        }
    }

    fn begin(&mut self, node: u64) {
        if let Some(place) = place(node) {
            self.panels[place] = Panel {
                requests: 1,
                notices: 0,
            };
            self.withdrawn[place] = false;
        }
    }

    fn withdraw(&mut self, node: u64) {
        if let Some(place) = place(node) {
            self.withdrawn[place] = true;
        }
    }

    fn add(&mut self, node: u64, requests: u64, notices: u64) {
        if let Some(place) = place(node) {
            self.panels[place].requests += requests;
            self.panels[place].notices += notices;
        }
    }

    /// How many copy and wait requests each number has sent since its latest beginning, withdrawn or not; number n at n − 1.
    pub fn requests(&self) -> impl Iterator<Item = u64> + '_ {
        self.panels.iter().map(|panel| panel.requests)
    }

    /// The state has these counts, and none for a number that no node has.
    pub fn stands_in(&self, state: &State) -> Result<(), String> {
        let found = panels(state);
        let told = |place: usize| match self.withdrawn[place] {
            true => Panel::default(),
            false => self.panels[place],
        };
        match (0..MOST_NODES).find(|&place| told(place) != found[place]) {
            None => Ok(()),
            Some(place) => Err(format!(
                "by the history node {} has {:?}, by the state {:?}",
                place + 1,
                told(place),
                found[place]
            )),
        }
    }
}

/// Where a number's counts are. An engine that answers or takes a number that no node can have is caught elsewhere.
fn place(node: u64) -> Option<usize> {
    let place = (node as usize).wrapping_sub(1);
    (place < MOST_NODES).then_some(place)
}
