//! Writing a network's image: settings, ids and records, each after its count, and in version 2 the joins under way and the counts.

use super::answers::{Answer, WriteAnswer};
use super::joins::{self, PANEL_BYTES, UNSETTLED_BYTES};
use super::memory::{self, State, Tables, MOST_NODES};
use super::network::Network;
use super::refusal::Refusal;
use super::soundness::lent_and_sound;
use super::table::Table;
use super::version::Version;

/// No sound state has a longer image of version 1: a node has at most 63 others outside its own entries, each in one place,
/// and 8 own entries, seven of 4 and the last, where nobody else qualifies, of 1.
pub const LONGEST_OF_VERSION_1: usize = 8 + MOST_NODES * (4 + (63 + 7 * 4 + 1) * 4);

/// Nor a longer one of any version: every node may be notifying.
pub const LONGEST_IMAGE: usize =
    LONGEST_OF_VERSION_1 + 1 + MOST_NODES * UNSETTLED_BYTES + 1 + MOST_NODES * PANEL_BYTES;

pub fn write(state: &[u64], tables: &[u8], version: u64, out: &mut [u8]) -> WriteAnswer {
    WriteAnswer::of(try_write(state, tables, version, out))
}

fn try_write(
    state: &[u64],
    tables: &[u8],
    version: u64,
    out: &mut [u8],
) -> Result<WriteAnswer, Refusal> {
    let (state, tables) = lent_and_sound(state, tables)?;
    let version = Version::new(version).ok_or(Refusal::ImageVersion)?;
    let network = Network::decode(state);
    Refusal::JoinInFlight.when(version == Version::One && !network.all_in_system())?;
    let image = image_of(&network, state, tables, version);
    Refusal::ShortOutput.when(out.len() < image.len())?;

    out[..image.len()].copy_from_slice(&image);
    Ok(WriteAnswer {
        refusal: 0,
        length: image.len() as u64,
    })
}

fn image_of(network: &Network, state: &State, tables: &Tables, version: Version) -> Vec<u8> {
    let settings = network.settings;
    let records = records_of(network, tables);
    let numbers = [settings.base(), settings.digits(), settings.depth()];

    let mut image = vec![4, version as u8];
    image.extend(numbers.map(|number| number as u8));
    image.push(network.count() as u8);
    image.extend(network.iter().flat_map(|(_, node)| node.id.to_le_bytes()));
    image.extend((records.len() as u16).to_le_bytes());
    image.extend(records.as_flattened());
    if version == Version::Two {
        image.extend(joins::sections_of(state));
    }
    image
}

/// Node, level, digit, neighbor of every filled slot, in order.
fn records_of(network: &Network, tables: &Tables) -> Vec<[u8; 4]> {
    let mut records = Vec::new();
    for (number, _) in network.iter() {
        let table = Table::decode(network.settings, memory::table_bytes(tables, number));
        for (level, digit, entry) in table.iter() {
            let place = [number as u8, level as u8, digit as u8];
            let [node, level, digit] = place;
            records.extend(entry.iter().map(|near| [node, level, digit, near as u8]));
        }
    }
    records
}
