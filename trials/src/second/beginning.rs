//! Beginning a join: one more node, copying, that knows itself and has sent a request to its gateway.

use super::answers::{Answer, BeginAnswer};
use super::memory::{self, MOST_NODES};
use super::network::{Network, Node, Panel, Status};
use super::refusal::Refusal;
use super::soundness::lent_and_sound;
use super::table::Table;

pub fn begin(state: &mut [u64], tables: &mut [u8], id: u32, gateway: u64) -> BeginAnswer {
    BeginAnswer::of(try_begin(state, tables, id, gateway))
}

fn try_begin(
    state: &mut [u64],
    tables: &mut [u8],
    id: u32,
    gateway: u64,
) -> Result<BeginAnswer, Refusal> {
    lent_and_sound(state, tables)?;
    let (state, tables) = memory::lent_mut(state, tables).ok_or(Refusal::ShortMemory)?;
    let mut network = Network::decode(state);
    let settings = network.settings;
    Refusal::BadId.when(!settings.valid(id))?;
    Refusal::IdTaken.when(network.iter().any(|(_, node)| node.id == id))?;
    let gateway = network.number(gateway)?;
    Refusal::Full.when(network.count() == MOST_NODES)?;
    Refusal::GatewayNotInSystem.when(!network.node(gateway).in_system())?;

    let status = Status::Copying { target: gateway };
    let panel = Panel {
        requests: 1,
        notices: 0,
    };
    let number = network.add(Node { id, status, panel });
    network.encode(state);
    Table::own_entries(settings, number, id).encode(memory::table_bytes_mut(tables, number));
    Ok(BeginAnswer {
        refusal: 0,
        node: number as u64,
    })
}
