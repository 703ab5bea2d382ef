//! What the entries of nodes that do not copy have of the nodes of a point at which the verdict passed, whatever joins are under way since.

use crate::lent::Lent;
use crate::second::memory::table_bytes;
use crate::second::network::{Network, Status};
use crate::second::table::{Entry, Table};

/// Each entry is full or has every known node that qualifies, and others that are not in system stand behind all of these. Known are the nodes of that
/// point, numbers 1 to `known`.
pub fn known_stand(memory: &Lent, known: usize) -> Result<(), String> {
    let network = Network::decode(memory.used_state());
    let copies = |status| matches!(status, Status::Copying { .. });
    for (owner, _) in network.iter().filter(|(_, node)| !copies(node.status)) {
        let bytes = table_bytes(memory.used_tables(), owner);
        for (level, digit, entry) in Table::decode(network.settings, bytes).iter() {
            let qualified = qualified(&network, known, (owner, level, digit));
            if !stand(&network, owner, entry, &qualified) {
                return Err(format!(
                    "{entry:?} at {level} {digit} of {owner}, with {qualified:?}"
                ));
            }
        }
    }
    Ok(())
}

/// The known nodes that qualify for an entry.
fn qualified(
    network: &Network,
    known: usize,
    (owner, level, digit): (usize, usize, usize),
) -> Vec<usize> {
    let (settings, own_id) = (network.settings, network.node(owner).id);
    let known = network.iter().take(known);
    let qualified = known.filter(|(_, node)| settings.qualified(node.id, own_id, level, digit));
    qualified.map(|(number, _)| number).collect()
}

fn stand(network: &Network, owner: usize, entry: &Entry, qualified: &[usize]) -> bool {
    let full = entry.len() == network.settings.depth();
    let settled = |node: usize| node == owner || network.node(node).in_system();
    let front: Vec<usize> = entry.iter().take_while(|&node| settled(node)).collect();
    let all_in_front = qualified.iter().all(|node| front.contains(node));
    all_in_front || full && front.len() == entry.len()
}
