//! Random sound states: reached by runs, and built from the clauses of soundness alone.

use super::{fresh_id, id, run, settings, Rng};
use crate::engine::Second;
use crate::lent::Lent;
use crate::panel::Bounds;
use crate::script::{Call, Line};
use crate::second::memory::{self, State, Tables, STATE_WORDS, TABLE_BYTES};
use crate::second::network::{Network, Node, Panel, Status};
use crate::second::table::Table;
use crate::second::{digit, NodeSet};

/// A state at some point of a random run.
pub fn reached_state(rng: &mut Rng) -> Lent {
    let calls = rng.pick(&[3, 10, 30, 100, 300]);
    run(rng, calls).1
}

/// A state that is sound and most likely reached by no run.
pub fn built_state(rng: &mut Rng) -> (Box<State>, Box<Tables>) {
    let network = built_network(rng);
    let mut state = Box::new([0; STATE_WORDS]);
    let mut tables = Box::new([0; TABLE_BYTES]);
    network.encode(&mut state);
    for (number, _) in network.iter() {
        let table = built_table(rng, &network, number);
        table.encode(memory::table_bytes_mut(&mut tables, number));
    }
    (state, tables)
}

/// A state of either kind.
pub fn some_state(rng: &mut Rng) -> Lent {
    if rng.once_in(2) {
        return reached_state(rng);
    }
    let (state, tables) = built_state(rng);
    let mut memory = Lent::noise();
    memory.state[..STATE_WORDS].copy_from_slice(&state[..]);
    memory.tables[..TABLE_BYTES].copy_from_slice(&tables[..]);
    memory
}

/// Lines that make a built state: a founding, then every word and byte by hand that it leaves otherwise.
pub fn set_up_built(rng: &mut Rng) -> Vec<Line> {
    let (state, tables) = built_state(rng);
    let found = Call::Found {
        settings: [2, 1, 1],
        id: 0,
    };
    let mut memory = Lent::noise();
    memory.call(&Second, &found);
    let words = (0..STATE_WORDS).filter(|&place| state[place] != memory.state[place]);
    let bytes = (0..TABLE_BYTES).filter(|&place| tables[place] != memory.tables[place]);
    let word = |place| Line::Word {
        place,
        value: state[place],
    };
    let byte = |place| Line::Byte {
        place,
        value: tables[place],
    };
    let by_hand = words.map(word).chain(bytes.map(byte));
    [Line::Call(found)].into_iter().chain(by_hand).collect()
}

fn built_network(rng: &mut Rng) -> Network {
    let settings = settings(rng);
    let mut network = Network::settled(settings, &[id(rng, settings)]);
    let count = rng.pick(&[1, 2, 3, 5, 10, 63, 64]);
    while network.count() < count {
        let Some(id) = fresh_id(rng, &network) else {
            break;
        };
        let status = Status::InSystem;
        let panel = Panel::default();
        network.add(Node { id, status, panel });
    }
    for number in 2..=network.count() {
        network.node_mut(number).status = built_status(rng, &network, number);
    }
    build_panels(rng, &mut network);
    network
}

/// Counts that the statuses allow, often at their bounds.
fn build_panels(rng: &mut Rng, network: &mut Network) {
    let mut state = [0; STATE_WORDS];
    network.encode(&mut state);
    for number in 1..=network.count() {
        let Bounds { requests, notices } = Bounds::of(&state, number);
        let [requests, notices] = [requests, notices].map(|range| {
            let (least, most) = (*range.start(), *range.end());
            let inside = rng.between(least, most);
            rng.pick(&[least, inside, most])
        });
        network.node_mut(number).panel = Panel { requests, notices };
    }
}

/// A status that the nodes before this one allow; later ones stay as they are or begin a join of their own.
fn built_status(rng: &mut Rng, network: &Network, number: usize) -> Status {
    let before = network.iter().take(number - 1);
    let attached = before.filter(|(_, node)| !node.joining());
    let attached: Vec<usize> = attached.map(|(other, _)| other).collect();
    let target = rng.pick(&attached);
    match rng.below(4) {
        0 => Status::InSystem,
        1 if network.node(target).in_system() => Status::Copying { target },
        2 => Status::Waiting { target },
        _ if attached.len() > 1 => built_notifying(rng, network, number, &attached),
        _ => Status::InSystem,
    }
}

fn built_notifying(rng: &mut Rng, network: &Network, number: usize, attached: &[usize]) -> Status {
    let place = rng.below(attached.len());
    let next = (place + 1) % attached.len();
    let (asked, told) = (attached[place], attached[next]);
    let mut pending = NodeSet::only(asked);
    let mut notified = NodeSet::only(told);
    for &other in attached
        .iter()
        .filter(|&&other| other != asked && other != told)
    {
        match rng.below(3) {
            0 => pending.insert(other),
            1 => notified.insert(other),
            _ => {}
        }
    }
    let common = pending
        .iter()
        .map(|other| network.common_suffix(number, other));
    let highest = common.min().expect("not empty");
    Status::Notifying {
        attach_level: rng.below(highest + 1),
        pending,
        notified,
    }
}

/// Own entries, and of the other nodes that may be stored, some, in any order.
fn built_table(rng: &mut Rng, network: &Network, owner: usize) -> Table {
    let settings = network.settings;
    let own_id = network.node(owner).id;
    let mut table = Table::own_entries(settings, owner, own_id);
    for _ in 0..rng.below(200) {
        let node = 1 + rng.below(network.count());
        let other = network.node(node);
        if other.joining() || node == owner {
            continue;
        }
        let id = other.id;
        let level = rng.below(settings.common_suffix(own_id, id) + 1);
        table.append(level, digit(id, level), node);
    }
    table
}
