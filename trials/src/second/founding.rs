//! Founding: a network of one node.

use super::answers::{Answer, FoundAnswer};
use super::memory::{self, State, Tables};
use super::network::Network;
use super::refusal::Refusal;
use super::settings::Settings;
use super::table::Table;

pub fn found(
    state: &mut [u64],
    tables: &mut [u8],
    base: u64,
    digits: u64,
    depth: u64,
    id: u32,
) -> FoundAnswer {
    FoundAnswer::of(try_found(state, tables, (base, digits, depth), id))
}

fn try_found(
    state: &mut [u64],
    tables: &mut [u8],
    (base, digits, depth): (u64, u64, u64),
    id: u32,
) -> Result<FoundAnswer, Refusal> {
    let (state, tables) = memory::lent_mut(state, tables).ok_or(Refusal::ShortMemory)?;
    let settings = Settings::new(base, digits, depth).ok_or(Refusal::BadSetting)?;
    Refusal::BadId.when(!settings.valid(id))?;

    let network = Network::settled(settings, &[id]);
    encode_all(
        &network,
        &[Table::own_entries(settings, 1, id)],
        state,
        tables,
    );
    Ok(FoundAnswer::default())
}

/// Decides every word and byte of the lent memory: node n's table is at n−1 of `all`.
pub fn encode_all(network: &Network, all: &[Table], state: &mut State, tables: &mut Tables) {
    network.encode(state);
    tables.fill(0);
    for (number, table) in (1..).zip(all) {
        table.encode(memory::table_bytes_mut(tables, number));
    }
}
