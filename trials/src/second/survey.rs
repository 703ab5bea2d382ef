//! The survey: every ordered pair of different nodes that have not failed, counted by what the lookup from one to the other answers.

use super::answers::{Answer, Counts, LookupAnswer, SurveyAnswer, LOST};
use super::lookup::follow;
use super::network::Network;
use super::node_set::NodeSet;
use super::refusal::Refusal;
use super::soundness::lent_and_sound;

pub fn survey(state: &[u64], tables: &[u8], failed: u64) -> SurveyAnswer {
    SurveyAnswer::of(try_survey(state, tables, NodeSet(failed)))
}

fn try_survey(state: &[u64], tables: &[u8], failed: NodeSet) -> Result<SurveyAnswer, Refusal> {
    let (state, tables) = lent_and_sound(state, tables)?;
    let network = Network::decode(state);
    let numbers = 1..=network.count();
    let left: Vec<usize> = numbers.filter(|&node| !failed.contains(node)).collect();

    let mut counts = Counts::default();
    for &from in &left {
        for &to in left.iter().filter(|&&to| to != from) {
            counts[place(follow(&network, tables, [from, to], failed))] += 1;
        }
    }
    Ok(SurveyAnswer { refusal: 0, counts })
}

/// Where a pair is counted. Different nodes are at least one hop apart.
fn place(looked_up: LookupAnswer) -> usize {
    if looked_up.arrived {
        looked_up.hops as usize - 1
    } else {
        LOST
    }
}
