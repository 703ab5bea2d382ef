//! Filling: an entry that falls short gets the lowest-numbered qualified nodes that are absent, behind those that it has.

use super::answers::{Answer, FillAnswer};
use super::memory::{self, TableBytes, Tables, MOST_NODES};
use super::network::Network;
use super::node_set::NodeSet;
use super::refusal::Refusal;
use super::settings::{digit, Settings};
use super::soundness::lent_and_sound;
use super::table::Entry;

/// Node, level, digit and neighbor, as an image has them.
type Addition = [u8; 4];

/// No sound state gets a longer list: a node has at most 63 others outside its own entries, each in one place, and 8 own entries, seven of 4 and the
/// last of 1, in each of which it stands itself.
pub const MOST_ADDED_BYTES: usize = MOST_NODES * (63 + 7 * 3) * size_of::<Addition>();

pub fn fill(state: &[u64], tables: &mut [u8], out: &mut [u8]) -> FillAnswer {
    FillAnswer::of(try_fill(state, tables, out))
}

fn try_fill(state: &[u64], tables: &mut [u8], out: &mut [u8]) -> Result<FillAnswer, Refusal> {
    let (state, lent) = lent_and_sound(state, tables)?;
    let network = Network::decode(state);
    Refusal::JoinInFlight.when(!network.all_in_system())?;
    let additions = additions_to(&network, lent);
    let list = additions.as_flattened();
    Refusal::ShortOutput.when(out.len() < list.len())?;

    out[..list.len()].copy_from_slice(list);
    let tables = tables.first_chunk_mut().ok_or(Refusal::ShortMemory)?;
    for addition in &additions {
        append(tables, addition);
    }
    Ok(FillAnswer {
        refusal: 0,
        additions: additions.len() as u64,
    })
}

/// What every entry lacks, in image order.
fn additions_to(network: &Network, tables: &Tables) -> Vec<Addition> {
    let mut filling = Filling {
        settings: network.settings,
        digits: Digits::of(network),
        additions: vec![],
    };
    for (owner, node) in network.iter() {
        filling.fill_table(owner, node.id, memory::table_bytes(tables, owner));
    }
    filling.additions
}

/// A filling on its way through the tables.
struct Filling {
    settings: Settings,
    digits: Digits,
    additions: Vec<Addition>,
}

impl Filling {
    /// Those that share the owner's low digits grow fewer level by level; once the owner is alone it stands already wherever anybody qualifies.
    fn fill_table(&mut self, owner: usize, own_id: u32, table: &TableBytes) {
        let mut sharing = NodeSet(u64::MAX);
        for level in 0..self.settings.digits() {
            self.fill_level([owner, level], sharing, table);
            sharing = sharing.intersection(self.digits.having(level, digit(own_id, level)));
            if sharing == NodeSet::only(owner) {
                return;
            }
        }
    }

    fn fill_level(&mut self, [owner, level]: [usize; 2], sharing: NodeSet, table: &TableBytes) {
        for digit in 0..self.settings.base() {
            let qualified = sharing.intersection(self.digits.having(level, digit));
            if !qualified.is_empty() {
                let entry = Entry::decode(memory::entry_bytes(table, level, digit));
                let place = [owner as u8, level as u8, digit as u8];
                self.fill_entry(place, &entry, qualified);
            }
        }
    }

    /// The lowest absent ones, until it would hold what it must.
    fn fill_entry(
        &mut self,
        [owner, level, digit]: [u8; 3],
        entry: &Entry,
        mut qualified: NodeSet,
    ) {
        let must = self.settings.depth().min(qualified.len());
        if entry.len() < must {
            entry.iter().for_each(|node| qualified.remove(node));
        }
        for _ in entry.len()..must {
            let node = qualified.lowest();
            qualified.remove(node);
            self.additions.push([owner, level, digit, node as u8]);
        }
    }
}

/// Puts an addition behind what its entry has.
fn append(tables: &mut Tables, &[owner, level, digit, node]: &Addition) {
    let table = memory::table_bytes_mut(tables, owner.into());
    let slots = memory::entry_bytes_mut(table, level.into(), digit.into());
    let free = Entry::decode(slots).len();
    slots[free] = node;
}

/// Who has which digit at which level.
struct Digits([[NodeSet; 16]; 8]);

impl Digits {
    fn of(network: &Network) -> Digits {
        let mut having = [[NodeSet::default(); 16]; 8];
        for (number, node) in network.iter() {
            for (level, of_level) in having.iter_mut().enumerate() {
                of_level[digit(node.id, level)].insert(number);
            }
        }
        Digits(having)
    }

    fn having(&self, level: usize, digit: usize) -> NodeSet {
        self.0[level][digit]
    }
}
