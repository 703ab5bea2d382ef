//! Steps of withdrawals.

use crate::engine::Second;
use crate::lent::Lent;
use crate::random::{bad_number, failed_set, Rng};
use crate::script::Call;
use crate::second::memory::record;

pub use crate::steps::{beginning, call, called, delivery_of_others, expect, network};

pub const COPYING: u64 = 1;
pub const WAITING: u64 = 2;

/// Answers of deliveries.
pub const COPIED: u64 = 0x100;
pub const SENT_ON: u64 = 0x200;
const ATTACHED: u64 = 0x300;

pub fn status(memory: &Lent, node: u64) -> u64 {
    let [_, status, ..] = *record(memory.used_state(), node as usize);
    status
}

/// The delivery of a copying or waiting node's request, unless it would attach the node.
pub fn own_delivery(memory: &Lent, sender: u64) -> Option<Call> {
    let [_, _, _, receiver, ..] = *record(memory.used_state(), sender as usize);
    let call = Call::Deliver { sender, receiver };
    let answer = memory.clone().call(&Second, &call);
    (!attaches(answer)).then_some(call)
}

/// Of a delivery, whatever the level and whether or not the sender settles.
pub fn attaches(answer: u64) -> bool {
    answer & 0xffff == ATTACHED
}

/// A call that only looks, or one that is refused while this node, the highest-numbered, copies or waits.
pub fn looking(rng: &mut Rng, node: u64) -> Call {
    let other = rng.between(1, node);
    let bad = bad_number(rng, node as usize);
    let failed = failed_set(rng, node as usize);
    let version = rng.pick(&[1, 2, 3]);
    match rng.below(14) {
        0 => Call::Sound,
        1 => Call::Survey { failed },
        2 => Call::Verdict,
        3 => Call::Write { version },
        4 => Call::Lookup {
            from: node,
            to: other,
            failed,
        },
        5 => Call::Lookup {
            from: other,
            to: node,
            failed,
        },
        6 => Call::Deliver {
            sender: node,
            receiver: node,
        },
        7 => Call::Deliver {
            sender: node,
            receiver: bad,
        },
        8 => Call::Withdraw { node: bad },
        9 => Call::Withdraw { node: node - 1 },
        10 => Call::Found {
            settings: [1, 1, 1],
            id: 0,
        },
        11 => Call::Trace {
            trace: vec![2, 1, node as u8, 2, node as u8, other as u8],
        },
        12 => Call::Fill,
        _ => Call::Read { image: vec![4] },
    }
}
