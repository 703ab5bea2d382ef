//! Where things lie in the lent memory.

/// Fixed length of the state, in words.
pub const STATE_WORDS: usize = 520;
/// Fixed length of the tables, in bytes.
pub const TABLE_BYTES: usize = 32_768;
/// The most nodes a network can have.
pub const MOST_NODES: usize = 64;

pub type State = [u64; STATE_WORDS];
pub type Tables = [u8; TABLE_BYTES];
/// id, status, attach level, target, pending, notified, requests, notices.
pub type Record = [u64; 8];
pub type TableBytes = [u8; 512];
pub type EntryBytes = [u8; 4];

/// Words of the state's head: base, digits, depth, number of nodes; four unused ones follow.
pub const BASE: usize = 0;
pub const DIGITS: usize = 1;
pub const DEPTH: usize = 2;
pub const COUNT: usize = 3;

/// The part of the lent memory that counts, if enough was lent.
pub fn lent<'a>(state: &'a [u64], tables: &'a [u8]) -> Option<(&'a State, &'a Tables)> {
    Some((state.first_chunk()?, tables.first_chunk()?))
}

pub fn lent_mut<'a>(
    state: &'a mut [u64],
    tables: &'a mut [u8],
) -> Option<(&'a mut State, &'a mut Tables)> {
    Some((state.first_chunk_mut()?, tables.first_chunk_mut()?))
}

/// The record of node `number`, 1 to 64.
pub fn record(state: &State, number: usize) -> &Record {
    state[8 * number..].first_chunk().expect("64 records fit")
}

pub fn record_mut(state: &mut State, number: usize) -> &mut Record {
    state[8 * number..]
        .first_chunk_mut()
        .expect("64 records fit")
}

/// The table of node `number`, 1 to 64.
pub fn table_bytes(tables: &Tables, number: usize) -> &TableBytes {
    tables[512 * (number - 1)..]
        .first_chunk()
        .expect("64 tables fit")
}

pub fn table_bytes_mut(tables: &mut Tables, number: usize) -> &mut TableBytes {
    tables[512 * (number - 1)..]
        .first_chunk_mut()
        .expect("64 tables fit")
}

/// The four slots of entry (level, digit) within one node's table.
pub fn entry_bytes(table: &TableBytes, level: usize, digit: usize) -> &EntryBytes {
    table[64 * level + 4 * digit..]
        .first_chunk()
        .expect("128 entries fit")
}

pub fn entry_bytes_mut(table: &mut TableBytes, level: usize, digit: usize) -> &mut EntryBytes {
    table[64 * level + 4 * digit..]
        .first_chunk_mut()
        .expect("128 entries fit")
}
