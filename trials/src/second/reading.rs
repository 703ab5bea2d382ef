//! Reading an image: judged sentence by sentence, each over the whole image, then taken: of version 1 as a settled network, of version 2 as
//! the whole state that it has.

use super::answers::{Answer, ReadAnswer};
use super::founding::encode_all;
use super::joins::Joins;
use super::memory::{self, State, Tables, MOST_NODES, STATE_WORDS, TABLE_BYTES};
use super::network::Network;
use super::refusal::Refusal;
use super::settings::{digit, Settings};
use super::soundness::sound;
use super::table::Table;
use super::version::Version;

/// A longer image is refused whatever its counts say.
pub const LONGEST_READ: usize = 65_535;

/// An image whose sections have the lengths that its counts give.
struct Image {
    settings: Settings,
    ids: Vec<u32>,
    records: Vec<Record>,
    /// What version 2 adds.
    joins: Option<Joins>,
}

/// One filled slot.
struct Record {
    node: usize,
    level: usize,
    digit: usize,
    neighbor: usize,
}

/// Why an image is declined, and the place of the record for which it is, 0 for none.
struct Declined {
    refusal: Refusal,
    place: usize,
}

impl From<Refusal> for Declined {
    fn from(refusal: Refusal) -> Declined {
        Declined { refusal, place: 0 }
    }
}

pub fn read(state: &mut [u64], tables: &mut [u8], image: &[u8]) -> ReadAnswer {
    match try_read(state, tables, image) {
        Ok(()) => ReadAnswer::default(),
        Err(Declined { refusal, place }) => ReadAnswer {
            place: place as u64,
            ..ReadAnswer::refused(refusal)
        },
    }
}

fn try_read(state: &mut [u64], tables: &mut [u8], image: &[u8]) -> Result<(), Declined> {
    let (state, tables) = memory::lent_mut(state, tables).ok_or(Refusal::ShortMemory)?;
    let image = Image::parse(image)?;
    image.judge_ids()?;
    image.judge_numbers()?;
    image.judge_order()?;
    let all = image.build_tables()?;
    image.judge_own_entries(&all)?;

    let settled = Network::settled(image.settings, &image.ids);
    match &image.joins {
        None => encode_all(&settled, &all, state, tables),
        Some(joins) => {
            let (restored_state, restored_tables) = restored(&settled, &all, joins)?;
            *state = *restored_state;
            *tables = *restored_tables;
        }
    }
    Ok(())
}

/// Sentence 24: the whole state of an image of version 2, if it is sound.
fn restored(
    settled: &Network,
    all: &[Table],
    joins: &Joins,
) -> Result<(Box<State>, Box<Tables>), Refusal> {
    let mut state = Box::new([0; STATE_WORDS]);
    let mut tables = Box::new([0; TABLE_BYTES]);
    encode_all(settled, all, &mut state, &mut tables);
    joins.put(&mut state)?;
    Refusal::UnsoundImage.when(!sound(&state, &tables))?;
    Ok((state, tables))
}

impl Image {
    /// Sentences 3 to 6.
    fn parse(image: &[u8]) -> Result<Image, Refusal> {
        let ([start, version, base, digits, depth], rest) =
            image.split_first_chunk().ok_or(Refusal::NotAnImage)?;
        Refusal::NotAnImage.when(*start != 4)?;
        let version = Version::new((*version).into()).ok_or(Refusal::ImageVersion)?;
        let settings = Settings::new((*base).into(), (*digits).into(), (*depth).into())
            .ok_or(Refusal::BadSetting)?;
        Refusal::ImageCounts.when(image.len() > LONGEST_READ)?;
        Image::sections(settings, version, rest).ok_or(Refusal::ImageCounts)
    }

    /// The sections behind the settings, if the counts are there, in range, and give exactly the length.
    fn sections(settings: Settings, version: Version, rest: &[u8]) -> Option<Image> {
        let (&count, rest) = rest.split_first()?;
        let count = usize::from(count);
        if count == 0 || count > MOST_NODES {
            return None;
        }
        let (ids, rest) = rest.split_at_checked(4 * count)?;
        let (&record_count, rest) = rest.split_first_chunk()?;
        let record_count = usize::from(u16::from_le_bytes(record_count));
        let (records, rest) = rest.split_at_checked(4 * record_count)?;
        let joins = match version {
            Version::One => rest.is_empty().then_some(None)?,
            Version::Two => Some(Joins::parse(rest)?),
        };
        let id = |bytes: &[u8]| u32::from_le_bytes(bytes.try_into().expect("chunks of four"));
        Some(Image {
            settings,
            ids: ids.chunks_exact(4).map(id).collect(),
            records: records.chunks_exact(4).map(Record::new).collect(),
            joins,
        })
    }

    /// Sentences 7 and 8.
    fn judge_ids(&self) -> Result<(), Refusal> {
        Refusal::BadId.when(!self.ids.iter().all(|&id| self.settings.valid(id)))?;
        let mut sorted = self.ids.clone();
        sorted.sort_unstable();
        Refusal::IdTaken.when(sorted.windows(2).any(|pair| pair[0] == pair[1]))
    }

    /// Sentence 9.
    fn judge_numbers(&self) -> Result<(), Refusal> {
        let numbers = 1..=self.ids.len();
        let known =
            |record: &Record| numbers.contains(&record.node) && numbers.contains(&record.neighbor);
        Refusal::NoSuchNode.when(!self.records.iter().all(known))
    }

    /// Sentence 10: levels and digits are in range, and no record is below the one before it.
    fn judge_order(&self) -> Result<(), Declined> {
        let (digits, base) = (self.settings.digits(), self.settings.base());
        let mut before = (0, 0, 0);
        self.none_is(Refusal::RecordOrder, |record| {
            let below = record.entry() < before;
            before = record.entry();
            below || record.level >= digits || record.digit >= base
        })
    }

    /// Sentence 17: each neighbor is qualified for its entry, new there, and finds room.
    fn build_tables(&self) -> Result<Vec<Table>, Declined> {
        let mut all = vec![Table::empty(self.settings); self.ids.len()];
        self.none_is(Refusal::RecordNeighbor, |record| {
            let table = &mut all[record.node - 1];
            !self.qualified(record) || !table.append(record.level, record.digit, record.neighbor)
        })?;
        Ok(all)
    }

    /// Sentence 18: no own entry is without a record, and each starts with its owner.
    fn judge_own_entries(&self, all: &[Table]) -> Result<(), Declined> {
        let absent = |(table, &id): (&Table, &u32)| {
            (0..self.settings.digits()).any(|level| table.entry(level, digit(id, level)).is_empty())
        };
        Refusal::OwnEntry.when(all.iter().zip(&self.ids).any(absent))?;
        let mut before = (0, 0, 0);
        self.none_is(Refusal::OwnEntry, |record| {
            let starts = record.entry() != before;
            before = record.entry();
            starts && record.neighbor != record.node && self.in_own_entry(record)
        })
    }

    /// Declines at the first record that is bad; they are asked in order.
    fn none_is(&self, refusal: Refusal, bad: impl FnMut(&Record) -> bool) -> Result<(), Declined> {
        match self.records.iter().position(bad) {
            Some(before) => Err(Declined {
                refusal,
                place: before + 1,
            }),
            None => Ok(()),
        }
    }

    /// May the neighbor stand in the entry?
    fn qualified(&self, record: &Record) -> bool {
        let (owner, neighbor) = (self.ids[record.node - 1], self.ids[record.neighbor - 1]);
        self.settings
            .qualified(neighbor, owner, record.level, record.digit)
    }

    fn in_own_entry(&self, record: &Record) -> bool {
        record.digit == digit(self.ids[record.node - 1], record.level)
    }
}

impl Record {
    fn new(bytes: &[u8]) -> Record {
        Record {
            node: bytes[0].into(),
            level: bytes[1].into(),
            digit: bytes[2].into(),
            neighbor: bytes[3].into(),
        }
    }

    /// What records rise by; equal ones are slots of the same entry.
    fn entry(&self) -> (usize, usize, usize) {
        (self.node, self.level, self.digit)
    }
}
