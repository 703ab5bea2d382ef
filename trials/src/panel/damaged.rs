//! States of runs, their counts changed by hand, and whether each is sound by document 02's sentences.

use std::collections::BTreeSet;

use super::{around, by_hand, requests_word, Bounds};
use crate::compare::Pair;
use crate::engine::{Engine, Second};
use crate::lent::Lent;
use crate::random::{judging_calls, run_in, Rng};
use crate::script::Line;
use crate::second::memory::{record, State, Tables, BASE, COUNT, DEPTH, DIGITS};
use crate::second::network::Network;
use crate::second::Settings;

/// A sound state that a run has reached, and a node of it whose counts are to be changed.
pub struct Reached {
    pub state: Box<State>,
    tables: Box<Tables>,
    pub node: usize,
}

/// What tells such nodes apart: the settings, the status, and the match with the target, or how many are told, or 1 if a settled one has sent any
/// request.
pub type Kind = ([u64; 3], u64, u64);

/// Words by their places.
type Words = Vec<(usize, u64)>;

/// Of few digits and of many, with entries of one and of four.
pub const SETTINGS: [[u64; 3]; 8] = [
    [2, 1, 1],
    [16, 1, 4],
    [2, 3, 1],
    [3, 3, 2],
    [2, 5, 4],
    [2, 8, 1],
    [4, 8, 4],
    [16, 8, 1],
];

/// One node of each kind that the joins by hand and a run in each of the settings meet.
pub fn reached() -> Vec<Reached> {
    let runs = SETTINGS.into_iter().zip(20..).map(|(settings, seed)| {
        let [base, digits, depth] = settings;
        let settings = Settings::new(base, digits, depth).expect("in range");
        run_in(&mut Rng::new(seed), settings, 800).0
    });
    let joins = by_hand().into_iter().map(|join| join.script());
    let mut met = BTreeSet::new();
    let mut all = vec![];
    for script in joins.chain(runs) {
        let mut memory = Lent::noise();
        for line in &script.lines {
            memory.obey(&Second, line);
            let nodes = 1..=memory.state[COUNT] as usize;
            let new = nodes.filter(|&node| met.insert(kind(memory.used_state(), node)));
            all.extend(new.map(|node| Reached::new(&memory, node)));
        }
    }
    all
}

fn kind(state: &State, node: usize) -> Kind {
    let [_, status, _, _, _, told, requests, _] = *record(state, node);
    let more = match status {
        0 => requests.min(1),
        3 => told.count_ones().into(),
        _ => Bounds::of(state, node).requests.end() - status,
    };
    ([state[BASE], state[DIGITS], state[DEPTH]], status, more)
}

impl Reached {
    fn new(memory: &Lent, node: usize) -> Reached {
        Reached {
            state: Box::new(*memory.used_state()),
            tables: Box::new(*memory.used_tables()),
            node,
        }
    }

    pub fn kind(&self) -> Kind {
        kind(&self.state, self.node)
    }

    /// Each count around its bounds, then both, then the told set with the second.
    fn changes(&self) -> Vec<Words> {
        let bounds = Bounds::of(&self.state, self.node);
        let first = requests_word(self.node);
        let second = first + 1;
        let one_by_one = [(first, &bounds.requests), (second, &bounds.notices)]
            .into_iter()
            .flat_map(|(place, range)| around(range).into_iter().map(move |n| vec![(place, n)]));
        let (most, more) = (*bounds.requests.end(), *bounds.notices.end());
        let both = [(most, more), (most + 1, more + 1), (u64::MAX, u64::MAX)];
        let both = both.map(|(requests, notices)| vec![(first, requests), (second, notices)]);
        one_by_one.chain(both).chain(self.told()).collect()
    }

    /// The told set of a notifying node: empty, with one node less and with one more, each with several second counts.
    fn told(&self) -> Vec<Words> {
        let [_, status, _, _, pending, told, _, notices] = *record(&self.state, self.node);
        if status != 3 {
            return vec![];
        }
        let network = Network::decode(&self.state);
        let free = |&(number, _): &(usize, _)| {
            number != self.node && (pending | told) >> (number - 1) & 1 == 0
        };
        let mut attached = network.iter().filter(|(_, node)| !node.joining());
        let one_more = attached
            .find(free)
            .map(|(number, _)| told | 1 << (number - 1));
        let sets = [0, told & (told - 1)].into_iter().chain(one_more);
        let counts = [0, notices.wrapping_sub(1), notices, notices + 1, u64::MAX];
        let second = requests_word(self.node) + 1;
        let words =
            sets.flat_map(|set| counts.map(|count| vec![(second - 2, set), (second, count)]));
        words.collect()
    }
}

/// Holds two engines to every change of what is reached; many changes leave a sound state, and many do not.
pub fn hold(a: &dyn Engine, b: &dyn Engine) {
    let held = Held::to(&reached(), a, b).unwrap_or_else(|what| panic!("{what}"));
    println!("{} sound, {} not", held.sound, held.unsound);
    assert!(held.sound > 500 && held.unsound > 2_000);
}

/// Two engines that are held to every change of the reached states.
pub struct Held<'a> {
    pair: Pair<'a>,
    /// How many changes left a sound state, and how many did not.
    sound: usize,
    unsound: usize,
}

impl<'a> Held<'a> {
    /// Every call that judges the state is refused 2 after a change exactly where the sentences say so, or else: what is wrong.
    pub fn to(
        reached: &[Reached],
        a: &'a dyn Engine,
        b: &'a dyn Engine,
    ) -> Result<Held<'a>, String> {
        let mut held = Held {
            pair: Pair::new(a, b),
            sound: 0,
            unsound: 0,
        };
        for reached in reached {
            for words in reached.changes() {
                let (kind, node) = (reached.kind(), reached.node);
                let judged = held.judge(reached, &words);
                judged.map_err(|what| format!("{kind:?}, node {node}, {words:?}: {what}"))?;
            }
        }
        Ok(held)
    }

    fn judge(&mut self, reached: &Reached, words: &Words) -> Result<(), String> {
        let mut state = reached.state.clone();
        for &(place, value) in words {
            state[place] = value;
        }
        let sound = Bounds::kept(&state, reached.node);
        let network = Network::decode(&reached.state);
        for call in judging_calls(&mut Rng::new(reached.node as u64), &network) {
            self.pair.restore(&state[..], &reached.tables[..]);
            let line = Line::Call(call);
            let answer = self.pair.obey(&line);
            let answer = answer.map_err(|what| format!("{line}: {what}"))?;
            if (answer & 0xff == 2) == sound {
                return Err(format!("{line}: answer {answer:#x}, sound: {sound}"));
            }
        }
        self.sound += usize::from(sound);
        self.unsound += usize::from(!sound);
        Ok(())
    }
}
