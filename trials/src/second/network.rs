//! The records of a sound state as a `Network`: settings, and each node's id, its status with what belongs to it, and its counts.

use super::memory::{self, Record, State, BASE, COUNT, DEPTH, DIGITS};
use super::node_set::NodeSet;
use super::refusal::Refusal;
use super::settings::Settings;

/// Where a node stands in its join. The paper's words: settled, copying, waiting, notifying.
#[derive(Clone, Copy, Debug, PartialEq, Eq)]
pub enum Status {
    InSystem,
    Copying {
        target: usize,
    },
    Waiting {
        target: usize,
    },
    /// The paper calls pending the asked set and notified the told set.
    Notifying {
        attach_level: usize,
        pending: NodeSet,
        notified: NodeSet,
    },
}

/// A node's two counts, document 02's front panel.
#[derive(Clone, Copy, Debug, Default, PartialEq, Eq, Hash)]
pub struct Panel {
    /// Copy and wait requests sent.
    pub requests: u64,
    /// Notices answered.
    pub notices: u64,
}

#[derive(Clone, Copy, Debug, PartialEq, Eq)]
pub struct Node {
    pub id: u32,
    pub status: Status,
    pub panel: Panel,
}

#[derive(Clone, Debug, PartialEq, Eq)]
pub struct Network {
    pub settings: Settings,
    /// Node n stands at n−1.
    nodes: Vec<Node>,
}

impl Node {
    pub fn in_system(&self) -> bool {
        self.status == Status::InSystem
    }

    /// Copying or waiting: nobody else stores it yet.
    pub fn joining(&self) -> bool {
        matches!(self.status, Status::Copying { .. } | Status::Waiting { .. })
    }

    /// The lowest level at which others store this node.
    pub fn floor(&self) -> usize {
        match self.status {
            Status::Notifying { attach_level, .. } => attach_level,
            _ => 0,
        }
    }

    /// Is a request from this node to `receiver` outstanding?
    pub fn asks(&self, receiver: usize) -> bool {
        match self.status {
            Status::InSystem => false,
            Status::Copying { target } | Status::Waiting { target } => target == receiver,
            Status::Notifying { pending, .. } => pending.contains(receiver),
        }
    }

    fn decode(record: &Record) -> Node {
        let [id, status, attach_level, target, pending, notified, requests, notices] = *record;
        let target = target as usize;
        let status = match status {
            0 => Status::InSystem,
            1 => Status::Copying { target },
            2 => Status::Waiting { target },
            _ => Status::Notifying {
                attach_level: attach_level as usize,
                pending: NodeSet(pending),
                notified: NodeSet(notified),
            },
        };
        Node {
            id: id as u32,
            status,
            panel: Panel { requests, notices },
        }
    }

    fn encode(&self) -> Record {
        let (number, attach_level, target, pending, notified) = match self.status {
            Status::InSystem => (0, 0, 0, 0, 0),
            Status::Copying { target } => (1, 0, target as u64, 0, 0),
            Status::Waiting { target } => (2, 0, target as u64, 0, 0),
            Status::Notifying {
                attach_level,
                pending,
                notified,
            } => (3, attach_level as u64, 0, pending.0, notified.0),
        };
        let id = self.id.into();
        let Panel { requests, notices } = self.panel;
        [
            id,
            number,
            attach_level,
            target,
            pending,
            notified,
            requests,
            notices,
        ]
    }
}

impl Network {
    /// A network whose nodes are all in system and have sent nothing.
    pub fn settled(settings: Settings, ids: &[u32]) -> Network {
        let in_system = |&id| Node {
            id,
            status: Status::InSystem,
            panel: Panel::default(),
        };
        Network {
            settings,
            nodes: ids.iter().map(in_system).collect(),
        }
    }

    /// The records of a sound state.
    pub fn decode(state: &State) -> Network {
        let settings = Settings::new(state[BASE], state[DIGITS], state[DEPTH]);
        let count = state[COUNT] as usize;
        Network {
            settings: settings.expect("a sound state has settings in range"),
            nodes: (1..=count)
                .map(|number| Node::decode(memory::record(state, number)))
                .collect(),
        }
    }

    /// Decides every word of the state.
    pub fn encode(&self, state: &mut State) {
        state.fill(0);
        state[BASE] = self.settings.base() as u64;
        state[DIGITS] = self.settings.digits() as u64;
        state[DEPTH] = self.settings.depth() as u64;
        state[COUNT] = self.count() as u64;
        for (number, node) in self.iter() {
            *memory::record_mut(state, number) = node.encode();
        }
    }

    pub fn count(&self) -> usize {
        self.nodes.len()
    }

    /// Nodes with their numbers, rising.
    pub fn iter(&self) -> impl Iterator<Item = (usize, &Node)> {
        (1..).zip(&self.nodes)
    }

    pub fn node(&self, number: usize) -> &Node {
        &self.nodes[number - 1]
    }

    pub fn node_mut(&mut self, number: usize) -> &mut Node {
        &mut self.nodes[number - 1]
    }

    /// Adds a node and answers its number.
    pub fn add(&mut self, node: Node) -> usize {
        self.nodes.push(node);
        self.nodes.len()
    }

    /// Removes the highest-numbered node.
    pub fn remove_last(&mut self) {
        self.nodes.pop();
    }

    /// A number that a caller passed, if a node has it.
    pub fn number(&self, passed: u64) -> Result<usize, Refusal> {
        Refusal::NoSuchNode.when(passed == 0 || passed > self.count() as u64)?;
        Ok(passed as usize)
    }

    pub fn common_suffix(&self, one: usize, other: usize) -> usize {
        self.settings
            .common_suffix(self.node(one).id, self.node(other).id)
    }

    pub fn all_in_system(&self) -> bool {
        self.nodes.iter().all(Node::in_system)
    }

    /// Every outstanding request as (sender, receiver).
    pub fn outstanding(&self) -> Vec<(usize, usize)> {
        let numbers = 1..=self.count();
        self.iter()
            .flat_map(|(sender, node)| {
                let open = numbers.clone().filter(|&receiver| node.asks(receiver));
                open.map(move |receiver| (sender, receiver))
            })
            .collect()
    }
}
