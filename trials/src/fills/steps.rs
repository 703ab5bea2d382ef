//! What these trials are made of.

use crate::compare::Pair;
use crate::lent::{Lent, ALL};
use crate::met::{meet, Met};
use crate::one_join::CONSISTENT;
use crate::script::{Call, Lend, Line};

pub use crate::steps::{call, expect, expect_kept, network};

/// Both engines on this network, with all memory lent.
pub fn restored(pair: &mut Pair, memory: &Lent) -> Result<(), String> {
    pair.restore(&memory.state, &memory.tables);
    pair.obey(&Line::Lend(ALL)).map(drop)
}

/// From here on so many bytes are lent for the list.
pub fn lend_list(pair: &mut Pair, out: usize) -> Result<(), String> {
    pair.obey(&Line::Lend(Lend { out, ..ALL })).map(drop)
}

/// A filling that is taken, after which the verdict passes; what it lists.
pub fn fill(pair: &mut Pair) -> Result<Vec<[u8; 4]>, String> {
    let answer = call(pair, Call::Fill)?;
    if answer & 0xff != 0 {
        return Err(format!("fill: {answer:#x}"));
    }
    let length = 4 * (answer >> 8) as usize;
    let list = pair.memory().out[..length].as_chunks().0.to_vec();
    expect(pair, Call::Verdict, CONSISTENT)?;
    Ok(list)
}

/// The image of this version, which is written.
pub fn image(pair: &mut Pair, version: u64) -> Result<Vec<u8>, String> {
    let answer = call(pair, Call::Write { version })?;
    if answer & 0xff != 0 {
        return Err(format!("write {version}: {answer:#x}"));
    }
    Ok(pair.memory().out[..(answer >> 8) as usize].to_vec())
}

/// How much was added.
pub fn meet_additions(met: &mut Met, additions: usize) {
    meet(
        met,
        match additions {
            0 => "nothing added",
            1..=9 => "few added",
            10..=999 => "many added",
            _ => "more than 999 added",
        },
    );
}
