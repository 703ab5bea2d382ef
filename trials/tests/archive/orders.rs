//! Every order of beginnings and deliveries in networks of up to four nodes, from each founder; and every withdrawal there, which leads to a point that
//! these reach as well.

use std::collections::{HashMap, HashSet};

use trials::archive::Archive;
use trials::compare::{Difference, Pair};
use trials::engine::Second;
use trials::script::{Call, Line, Script};
use trials::second::network::Network;
use trials::second::{sound, Settings, LOST};

const MOST: usize = 4;
const CONSISTENT: u64 = 0x100;

/// A point of a run: the memory that four nodes use. After each call both engines are held to what its history adds to the counts there, so that
/// these are the history's.
#[derive(Clone, PartialEq, Eq, Hash)]
struct Point {
    words: [u64; 8 * (MOST + 1)],
    bytes: [u8; 512 * MOST],
}

/// How a point was reached first: from which one, by which call.
struct Step {
    from: usize,
    call: Call,
}

/// Walks through every point that can be reached from one founding.
struct Walk {
    settings: Settings,
    ids: Vec<u32>,
    pair: Pair<'static>,
    seen: HashSet<Point>,
    steps: Vec<Step>,
    open: Vec<(usize, Point)>,
    ends: usize,
    /// Withdrawals, and where they led that was not reached by then: from which point.
    withdrawals: usize,
    withdrawn: HashMap<Point, usize>,
}

impl Walk {
    fn new(settings: [u64; 3], founder: u32, ids: &[u32]) -> Walk {
        let call = Call::Found {
            settings,
            id: founder,
        };
        let [base, digits, depth] = settings;
        let mut walk = Walk {
            settings: Settings::new(base, digits, depth).unwrap(),
            ids: ids.to_vec(),
            pair: Pair::new(&Archive, &Second),
            seen: HashSet::new(),
            steps: vec![],
            open: vec![],
            ends: 0,
            withdrawals: 0,
            withdrawn: HashMap::new(),
        };
        walk.pair.obey(&Line::Call(call.clone())).unwrap();
        walk.note(0, call);
        walk
    }

    /// A call from a point on; both engines must agree.
    fn call(&mut self, place: usize, point: &Point, call: &Call) -> u64 {
        self.pair.restore(&point.words, &point.bytes);
        let answer = self.pair.obey(&Line::Call(call.clone()));
        answer.unwrap_or_else(|what| panic!("{}", self.report(place, format!("{call}: {what}"))))
    }

    /// The memory now.
    fn point(&self) -> Point {
        Point {
            words: *self.pair.memory().state.first_chunk().unwrap(),
            bytes: *self.pair.memory().tables.first_chunk().unwrap(),
        }
    }

    /// The memory now, if new, is a point to go on from.
    fn note(&mut self, from: usize, call: Call) {
        let point = self.point();
        if self.seen.insert(point.clone()) {
            self.open.push((self.steps.len(), point));
            self.steps.push(Step { from, call });
        }
    }

    /// Goes on until no point is open; answers how many there were.
    fn explore(&mut self) -> usize {
        while let Some((place, point)) = self.open.pop() {
            self.pair.restore(&point.words, &point.bytes);
            let network = Network::decode(self.pair.memory().used_state());
            let [verdict, written] =
                [Call::Verdict, Call::WRITE_1].map(|call| self.call(place, &point, &call));
            self.stop(place, &point);
            self.survey(place, &point);
            let judged = self.judge(&network, [verdict, written & 0xff]);
            judged.unwrap_or_else(|what| panic!("{}", self.report(place, what)));
            self.begin_each(place, &point, &network);
            self.withdraw(place, &point, &network);
            let outstanding = network.outstanding();
            let taken = outstanding
                .iter()
                .filter(|&&request| self.deliver(place, &point, request))
                .count();
            if outstanding.is_empty() {
                self.ends += 1;
            } else if taken == 0 {
                panic!(
                    "{}",
                    self.report(place, "every request is held".to_string())
                );
            }
        }
        let elsewhere = |(point, _): &(&Point, &usize)| !self.seen.contains(point);
        if let Some((_, &place)) = self.withdrawn.iter().find(elsewhere) {
            let what = "a withdrawal leads elsewhere".to_string();
            panic!("{}", self.report(place, what));
        }
        self.steps.len()
    }

    /// The image of version 2 is the whole point: read over other memory it is there again.
    fn stop(&mut self, place: usize, point: &Point) {
        let length = self.call(place, point, &Call::WRITE_2) >> 8;
        let image = self.pair.memory().out[..length as usize].to_vec();
        let over = Point {
            words: [u64::MAX; 8 * (MOST + 1)],
            bytes: [u8::MAX; 512 * MOST],
        };
        let answer = self.call(place, &over, &Call::Read { image });
        if answer != 0 || self.point() != *point {
            let what = format!("its image is read otherwise: {answer:#x}");
            panic!("{}", self.report(place, what));
        }
    }

    /// At one point in five with some set of failed nodes; at each with none.
    fn survey(&mut self, place: usize, point: &Point) {
        let some = (place % 5 == 0).then_some(place as u64 / 5 % (1 << MOST));
        for failed in some.into_iter().chain([0]) {
            self.call(place, point, &Call::Survey { failed });
        }
    }

    /// What holds at every point, of which a survey was taken last: `ends` is the verdict's answer and the refusal of writing.
    fn judge(&self, network: &Network, ends: [u64; 2]) -> Result<(), String> {
        let (state, tables) = (
            self.pair.memory().used_state(),
            self.pair.memory().used_tables(),
        );
        if !sound(state, tables) {
            return Err("the state is not sound".to_string());
        }
        let most = self.settings.digits() as u64 + 1;
        let history = self.pair.history();
        if history.requests().any(|sent| sent > most) {
            return Err(format!("{history:?}"));
        }
        let expected = if network.all_in_system() {
            [CONSISTENT, 0]
        } else {
            [15, 15]
        };
        if ends != expected {
            return Err(format!("verdict {:#x}, writing {}", ends[0], ends[1]));
        }
        let lost = self.pair.memory().used_counts()[LOST];
        if network.all_in_system() && lost != 0 {
            return Err(format!("{lost} pairs are lost"));
        }
        Ok(())
    }

    fn begin_each(&mut self, place: usize, point: &Point, network: &Network) {
        if network.count() == MOST {
            return;
        }
        let gateways = network.iter().filter(|(_, node)| node.in_system());
        for (gateway, _) in gateways {
            for id in self.ids.clone() {
                let call = Call::Begin {
                    id,
                    gateway: gateway as u64,
                };
                let answer = self.call(place, point, &call);
                if answer & 0xff == 0 {
                    self.note(place, call);
                }
            }
        }
    }

    /// Withdraws the highest-numbered node if it copies or waits.
    fn withdraw(&mut self, place: usize, point: &Point, network: &Network) {
        let highest = network.count();
        if !network.node(highest).joining() {
            return;
        }
        let call = Call::Withdraw {
            node: highest as u64,
        };
        let answer = self.call(place, point, &call);
        assert_eq!(answer, 0, "{}", self.report(place, call.to_string()));
        self.withdrawals += 1;
        let point = self.point();
        if !self.seen.contains(&point) {
            self.withdrawn.insert(point, place);
        }
    }

    fn deliver(&mut self, place: usize, point: &Point, (sender, receiver): (usize, usize)) -> bool {
        let call = Call::Deliver {
            sender: sender as u64,
            receiver: receiver as u64,
        };
        let answer = self.call(place, point, &call);
        if answer & 0xff != 0 {
            return false;
        }
        self.note(place, call);
        true
    }

    fn report(&self, place: usize, what: String) -> String {
        let mut calls = vec![self.steps[place].call.clone()];
        let mut at = place;
        while at != 0 {
            at = self.steps[at].from;
            calls.push(self.steps[at].call.clone());
        }
        let mut script = Script::default();
        calls.into_iter().rev().for_each(|call| script.call(call));
        let line = script.lines.len() - 1;
        Difference { line, what }.report(0, &script)
    }
}

/// Every order from each founder: there are many, and some come to an end.
fn explore(settings: [u64; 3], ids: &[u32]) {
    for &founder in ids {
        let mut walk = Walk::new(settings, founder, ids);
        let points = walk.explore();
        let (ends, withdrawals) = (walk.ends, walk.withdrawals);
        assert!(
            points > 900 && ends > 60 && withdrawals > 300,
            "{points} points, {ends} ends, {withdrawals} withdrawals"
        );
    }
}

#[test]
fn every_order_with_two_digits() {
    let ids = [0x00, 0x01, 0x10, 0x11];
    explore([2, 2, 1], &ids);
    explore([2, 2, 2], &ids);
}

const THREE_DIGITS: [u32; 8] = [0x000, 0x001, 0x010, 0x011, 0x100, 0x101, 0x110, 0x111];

#[test]
fn every_order_with_three_digits_and_depth_1() {
    explore([2, 3, 1], &THREE_DIGITS);
}

#[test]
fn every_order_with_three_digits_and_depth_2() {
    explore([2, 3, 2], &THREE_DIGITS);
}
