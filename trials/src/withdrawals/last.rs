//! The 64th node, whose record and table end where the memory does.

use super::steps::{expect, COPIED};
use crate::by_hand::image;
use crate::compare::{same_network, Pair};
use crate::engine::Engine;
use crate::lent::EXACT;
use crate::script::{Call, Line};

/// It begins and is withdrawn, copying and then waiting, beside 63 nodes that do not know each other. Its own entries are the last of each level.
pub fn last(a: &dyn Engine, b: &dyn Engine) -> Result<(), String> {
    let ids: Vec<u32> = (0..63).collect();
    let image = image([16, 8, 4], &ids, &[]);
    let mut pair = Pair::new(a, b);
    pair.obey(&Line::Lend(EXACT))?;
    expect(&mut pair, Call::Read { image }, 0)?;
    let before = pair.memory().clone();
    let ids = [0xffff_ffff, 0xffff_fffe];
    let [begin, another] = ids.map(|id| Call::Begin { id, gateway: 5 });
    for waits in [false, true] {
        expect(&mut pair, begin.clone(), 64 << 8)?;
        if waits {
            let (sender, receiver) = (64, 5);
            expect(&mut pair, Call::Deliver { sender, receiver }, COPIED)?;
        }
        expect(&mut pair, another.clone(), 11)?;
        expect(&mut pair, Call::Withdraw { node: 65 }, 9)?;
        expect(&mut pair, Call::Withdraw { node: 63 }, 19)?;
        expect(&mut pair, Call::Withdraw { node: 64 }, 0)?;
        same_network(["before", "withdrawn"], &before, pair.memory())?;
        expect(&mut pair, Call::Withdraw { node: 64 }, 9)?;
        expect(&mut pair, Call::Withdraw { node: 63 }, 20)?;
    }
    expect(&mut pair, another, 64 << 8)
}
