//! What these trials save.

use crate::engine::Second;
use crate::lent::Lent;
use crate::panel::ALL_STATUSES;
use crate::script::Script;

/// Nodes 1 and 2 settled, 3 notifying with 2 asked and 1 told, 4 waiting for 3, 5 copying from 2; entries of one.
pub fn all_statuses() -> Lent {
    let script: Script = ALL_STATUSES.parse().expect("a script");
    let mut memory = Lent::noise();
    for line in &script.lines {
        memory.obey(&Second, line);
    }
    memory
}

/// Its two sections behind the records, worked out by hand.
#[rustfmt::skip]
pub const ALL_STATUSES_BEHIND: [u8; 72] = [
    3,
    3, 3, 1, 0, 2, 0, 0, 0, 0, 0, 0, 0, 1, 0, 0, 0, 0, 0, 0, 0,
    4, 2, 0, 3, 0, 0, 0, 0, 0, 0, 0, 0, 0, 0, 0, 0, 0, 0, 0, 0,
    5, 1, 0, 2, 0, 0, 0, 0, 0, 0, 0, 0, 0, 0, 0, 0, 0, 0, 0, 0,
    5, 0, 0, 2, 0, 2, 0, 2, 0, 1, 0,
];
