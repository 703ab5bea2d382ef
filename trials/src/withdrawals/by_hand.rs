//! Withdrawals with their answers, worked out by hand.

use super::steps::{called, expect};
use crate::compare::{same_network, Pair};
use crate::engine::Engine;
use crate::lent::Lent;
use crate::panel::ALL_STATUSES;
use crate::script::{Line, Script};

/// After all lines of `ALL_STATUSES` node 5 copies, before its last one node 4 waits, and after seven of them node 3 notifies. Each line is a call
/// with its answer, and leaves the memory that so many of those lines have left.
const FROM_ALL_STATUSES: [(&str, u64, usize); 27] = [
    ("withdraw 0", 9, 10),
    ("withdraw 6", 9, 10),
    ("withdraw 65", 9, 10),
    ("withdraw 261", 9, 10),
    ("withdraw 4294967296", 9, 10),
    ("withdraw 4294967301", 9, 10),
    ("withdraw 9223372036854775808", 9, 10),
    ("withdraw 18446744073709551615", 9, 10),
    ("withdraw 1", 19, 10),
    ("withdraw 2", 19, 10),
    ("withdraw 3", 19, 10),
    ("withdraw 4", 19, 10),
    ("withdraw 5", 0, 9),
    ("withdraw 5", 9, 9),
    ("deliver 5 2", 9, 9),
    ("withdraw 3", 19, 9),
    ("begin 001 2", 0x500, 10),
    ("withdraw 4", 19, 10),
    ("withdraw 5", 0, 9),
    ("withdraw 4", 0, 7),
    ("withdraw 4", 9, 7),
    ("withdraw 1", 19, 7),
    ("withdraw 2", 19, 7),
    ("withdraw 3", 20, 7),
    ("begin 110 1", 0x400, 8),
    ("deliver 4 1", 0x100, 9),
    ("withdraw 4", 0, 7),
];

/// Then node 3 settles; and networks of one and of two nodes in system.
const IN_SYSTEM: [(&str, u64); 12] = [
    ("deliver 3 2", 0x0100_0400),
    ("withdraw 3", 20),
    ("withdraw 2", 19),
    ("withdraw 4", 9),
    ("found 2 2 1 0", 0),
    ("withdraw 1", 20),
    ("withdraw 2", 9),
    ("begin 1 1", 0x200),
    ("withdraw 1", 19),
    ("withdraw 2", 0),
    ("withdraw 1", 20),
    ("sound", 0),
];

pub fn by_hand(a: &dyn Engine, b: &dyn Engine) -> Result<(), String> {
    let mut pair = Pair::new(a, b);
    let points = points(&mut pair)?;
    for (text, answer, lines) in FROM_ALL_STATUSES {
        expect(&mut pair, called(text), answer)?;
        let point = &points[lines - 1];
        same_network(["by hand", "found"], point, pair.memory())
            .map_err(|what| format!("{text}: {what}"))?;
    }
    IN_SYSTEM
        .into_iter()
        .try_for_each(|(text, answer)| expect(&mut pair, called(text), answer))
}

/// The memory after each line of `ALL_STATUSES`.
fn points(pair: &mut Pair) -> Result<Vec<Lent>, String> {
    let script: Script = ALL_STATUSES.parse()?;
    let play = |line: &Line| {
        pair.obey(line)?;
        Ok(pair.memory().clone())
    };
    script.lines.iter().map(play).collect()
}
