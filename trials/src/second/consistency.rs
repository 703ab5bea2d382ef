//! The verdict: is the network K-consistent, and if not, which entry falls short first?

use super::answers::{Answer, VerdictAnswer};
use super::memory::{self, TableBytes};
use super::network::Network;
use super::refusal::Refusal;
use super::settings::digit;
use super::soundness::lent_and_sound;
use super::table::Entry;

pub fn verdict(state: &[u64], tables: &[u8]) -> VerdictAnswer {
    VerdictAnswer::of(try_verdict(state, tables))
}

fn try_verdict(state: &[u64], tables: &[u8]) -> Result<VerdictAnswer, Refusal> {
    let (state, tables) = lent_and_sound(state, tables)?;
    let network = Network::decode(state);
    Refusal::JoinInFlight.when(!network.all_in_system())?;

    let short = network.iter().find_map(|(number, _)| {
        let table = memory::table_bytes(tables, number);
        short_entry(&network, number, table).map(|(level, digit)| (number, level, digit))
    });
    Ok(match short {
        None => VerdictAnswer {
            consistent: true,
            ..VerdictAnswer::default()
        },
        Some((node, level, digit)) => VerdictAnswer {
            node: node as u64,
            level: level as u64,
            digit: digit as u64,
            ..VerdictAnswer::default()
        },
    })
}

/// The first entry of the owner that holds fewer than min(K, H) nodes. The nodes that share the owner's low
/// digits grow fewer level by level, and at each level their digits tell how many qualify for each entry.
fn short_entry(network: &Network, owner: usize, table: &TableBytes) -> Option<(usize, usize)> {
    let settings = network.settings;
    let own_id = network.node(owner).id;
    let mut sharing: Vec<u32> = network.iter().map(|(_, node)| node.id).collect();
    for level in 0..settings.digits() {
        let mut qualified = [0; 16];
        for &id in &sharing {
            qualified[digit(id, level)] += 1;
        }
        let short = (0..settings.base()).find(|&digit| {
            let entry = Entry::decode(memory::entry_bytes(table, level, digit));
            entry.len() < settings.depth().min(qualified[digit])
        });
        if let Some(digit) = short {
            return Some((level, digit));
        }
        sharing.retain(|&id| digit(id, level) == digit(own_id, level));
    }
    None
}
