//! Withdrawing a join: the highest-numbered node, if it copies or waits, is no node any more.

use super::answers::{Answer, WithdrawAnswer};
use super::memory;
use super::network::Network;
use super::refusal::Refusal;
use super::soundness::lent_and_sound;

pub fn withdraw(state: &mut [u64], tables: &mut [u8], node: u64) -> WithdrawAnswer {
    WithdrawAnswer::of(try_withdraw(state, tables, node))
}

fn try_withdraw(
    state: &mut [u64],
    tables: &mut [u8],
    node: u64,
) -> Result<WithdrawAnswer, Refusal> {
    lent_and_sound(state, tables)?;
    let (state, tables) = memory::lent_mut(state, tables).ok_or(Refusal::ShortMemory)?;
    let mut network = Network::decode(state);
    let number = network.number(node)?;
    Refusal::NotHighest.when(number != network.count())?;
    Refusal::HasAttached.when(!network.node(number).joining())?;

    // Nobody else stores it, asks it or has told it: its own record and table are all there is of it.
    network.remove_last();
    network.encode(state);
    memory::table_bytes_mut(tables, number).fill(0);
    Ok(WithdrawAnswer::default())
}
