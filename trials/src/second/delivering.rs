//! Delivering one outstanding request. What it does is decided by the sender's status.

use super::answers::{Answer, DeliverAnswer};
use super::learning::{learn_node, learn_table};
use super::memory;
use super::network::{Network, Status};
use super::node_set::NodeSet;
use super::refusal::Refusal;
use super::settings::digit;
use super::soundness::lent_and_sound;
use super::table::{Entry, Table};

/// What a taken delivery was.
enum Kind {
    Copied,
    SentOn,
    Attached(usize),
    Notified,
}

/// The two nodes of a delivery with their tables.
struct Delivery {
    network: Network,
    sender: usize,
    receiver: usize,
    sender_table: Table,
    receiver_table: Table,
}

pub fn deliver(state: &mut [u64], tables: &mut [u8], sender: u64, receiver: u64) -> DeliverAnswer {
    DeliverAnswer::of(try_deliver(state, tables, sender, receiver))
}

fn try_deliver(
    state: &mut [u64],
    tables: &mut [u8],
    sender: u64,
    receiver: u64,
) -> Result<DeliverAnswer, Refusal> {
    lent_and_sound(state, tables)?;
    let (state, tables) = memory::lent_mut(state, tables).ok_or(Refusal::ShortMemory)?;
    let network = Network::decode(state);
    let (sender, receiver) = (network.number(sender)?, network.number(receiver)?);
    Refusal::NotOutstanding.when(!network.node(sender).asks(receiver))?;
    let waiting = matches!(network.node(sender).status, Status::Waiting { .. });
    Refusal::Held.when(waiting && !network.node(receiver).in_system())?;

    let table = |number| Table::decode(network.settings, memory::table_bytes(tables, number));
    let mut delivery = Delivery {
        sender_table: table(sender),
        receiver_table: table(receiver),
        network,
        sender,
        receiver,
    };
    let kind = delivery.perform();
    let settled = delivery.settle();
    delivery.network.encode(state);
    let Delivery {
        sender_table,
        receiver_table,
        ..
    } = delivery;
    sender_table.encode(memory::table_bytes_mut(tables, sender));
    receiver_table.encode(memory::table_bytes_mut(tables, receiver));
    Ok(kind.answer(settled))
}

impl Kind {
    fn answer(self, settled: bool) -> DeliverAnswer {
        let (kind, level) = match self {
            Kind::Copied => (1, 0),
            Kind::SentOn => (2, 0),
            Kind::Attached(level) => (3, level as u64),
            Kind::Notified => (4, 0),
        };
        DeliverAnswer {
            refusal: 0,
            kind,
            level,
            settled,
        }
    }
}

impl Delivery {
    fn perform(&mut self) -> Kind {
        let before = *self.network.node(self.sender);
        let kind = match before.status {
            Status::Copying { .. } => self.copy(),
            Status::Waiting { .. } => self.wait(),
            Status::Notifying {
                attach_level,
                pending,
                notified,
            } => self.notify(attach_level, pending, notified),
            Status::InSystem => unreachable!("a node in the system has nothing outstanding"),
        };
        self.count(before.joining());
        kind
    }

    /// A sender that goes on copying or waiting has sent one more request; one that was notifying already has one more notice answered.
    fn count(&mut self, was_joining: bool) {
        let sender = self.network.node_mut(self.sender);
        if sender.joining() {
            sender.panel.requests += 1;
        } else if !was_joining {
            sender.panel.notices += 1;
        }
    }

    /// The receiver's entry at `level` that the sender qualifies for.
    fn receiver_entry(&self, level: usize) -> Entry {
        let sender_digit = digit(self.network.node(self.sender).id, level);
        *self.receiver_table.entry(level, sender_digit)
    }

    fn common_suffix(&self) -> usize {
        self.network.common_suffix(self.sender, self.receiver)
    }

    /// The first of the receiver's entry for the sender, if that entry is full.
    fn way_on(&self) -> Option<usize> {
        let entry = self.receiver_entry(self.common_suffix());
        entry.first().filter(|_| self.full(entry))
    }

    fn full(&self, entry: Entry) -> bool {
        entry.len() == self.network.settings.depth()
    }

    fn set_sender(&mut self, status: Status) {
        self.network.node_mut(self.sender).status = status;
    }

    fn sender_learns(&mut self) {
        learn_table(
            &self.network,
            self.sender,
            &mut self.sender_table,
            &self.receiver_table,
        );
    }

    fn receiver_learns(&mut self) {
        learn_node(
            &self.network,
            self.receiver,
            &mut self.receiver_table,
            self.sender,
        );
    }

    fn copy(&mut self) -> Kind {
        self.sender_learns();
        self.set_sender(match self.way_on() {
            Some(target) if self.network.node(target).in_system() => Status::Copying { target },
            Some(target) => Status::Waiting { target },
            None => Status::Waiting {
                target: self.receiver,
            },
        });
        Kind::Copied
    }

    fn wait(&mut self) -> Kind {
        match self.way_on() {
            Some(target) => {
                self.sender_learns();
                self.set_sender(Status::Waiting { target });
                Kind::SentOn
            }
            None => self.attach(),
        }
    }

    /// The lowest level from which up to the common suffix the receiver has room for the sender.
    fn attach_level(&self) -> usize {
        let full_below = (0..self.common_suffix())
            .rev()
            .find(|&level| self.full(self.receiver_entry(level)));
        full_below.map_or(0, |level| level + 1)
    }

    fn attach(&mut self) -> Kind {
        let attach_level = self.attach_level();
        let notified = NodeSet::only(self.receiver);
        // The sender's floor must be known before the receiver learns it.
        self.set_sender(Status::Notifying {
            attach_level,
            pending: NodeSet::default(),
            notified,
        });
        self.sender_learns();
        self.receiver_learns();
        let both = self.sender_table.nodes().chain(self.receiver_table.nodes());
        let pending = self.to_ask(both, attach_level, notified);
        self.set_sender(Status::Notifying {
            attach_level,
            pending,
            notified,
        });
        Kind::Attached(attach_level)
    }

    fn notify(&mut self, attach_level: usize, pending: NodeSet, notified: NodeSet) -> Kind {
        let (mut pending, mut notified) = (pending, notified);
        self.receiver_learns();
        self.sender_learns();
        pending.remove(self.receiver);
        notified.insert(self.receiver);
        let found = self.to_ask(self.receiver_table.nodes(), attach_level, notified);
        self.set_sender(Status::Notifying {
            attach_level,
            pending: pending.union(found),
            notified,
        });
        Kind::Notified
    }

    /// Those of `nodes` that share at least the attach level with the sender and are neither it nor notified.
    fn to_ask(
        &self,
        nodes: impl Iterator<Item = usize>,
        attach_level: usize,
        notified: NodeSet,
    ) -> NodeSet {
        let mut chosen = NodeSet::default();
        for node in nodes.filter(|&node| node != self.sender && !notified.contains(node)) {
            if self.network.common_suffix(self.sender, node) >= attach_level {
                chosen.insert(node);
            }
        }
        chosen
    }

    /// A notifying sender that has nobody left to ask is in system from this step on.
    fn settle(&mut self) -> bool {
        let status = self.network.node(self.sender).status;
        let settled = matches!(status, Status::Notifying { pending, .. } if pending.is_empty());
        if settled {
            self.set_sender(Status::InSystem);
        }
        settled
    }
}
