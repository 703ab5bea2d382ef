//! Joins step by step, with every node's counts worked out by hand.

use super::panels;
use crate::by_hand::image;
use crate::script::{Call, Line, Script};
use crate::second::memory::{State, MOST_NODES};
use crate::second::network::Panel;

/// A run, and the counts after each of its lines.
pub struct Join {
    pub name: String,
    pub steps: Vec<Step>,
}

pub struct Step {
    pub line: Line,
    /// Node n's at n − 1.
    panels: Vec<Panel>,
}

/// Each line is followed by the nodes' requests and notices, node 1's first.
const JOINS: [(&str, &str); 8] = [
    // The smallest join of document 01, which makes E1, and calls that count nothing.
    (
        "E1",
        "found 2 2 1 0  | 0/0
         begin 1 1      | 0/0 1/0
         deliver 2 1    | 0/0 2/0
         deliver 2 1    | 0/0 2/0
         deliver 2 1    | 0/0 2/0
         begin 1 1      | 0/0 2/0
         lookup 1 2     | 0/0 2/0
         verdict        | 0/0 2/0
         survey         | 0/0 2/0
         sound          | 0/0 2/0
         write          | 0/0 2/0
         read 04        | 0/0 2/0
         found 1 2 1 0  | 0/0 2/0
         lookup 1 2 without 2 | 0/0 2/0
         lookup 1 2 without 3 | 0/0 2/0
         survey without 2 | 0/0 2/0
         trace 01020102 | 0/0 2/0
         trace 01020101 | 0/0 2/0",
    ),
    // Node 4 is held, twice, until node 3 has its one notice answered, and has sent no more for it.
    (
        "held",
        "found 2 3 1 000 | 0/0
         begin 100 1     | 0/0 1/0
         deliver 2 1     | 0/0 2/0
         deliver 2 1     | 0/0 2/0
         begin 010 1     | 0/0 2/0 1/0
         deliver 3 1     | 0/0 2/0 2/0
         deliver 3 1     | 0/0 2/0 2/0
         begin 110 1     | 0/0 2/0 2/0 1/0
         deliver 4 1     | 0/0 2/0 2/0 2/0
         deliver 4 3     | 0/0 2/0 2/0 2/0
         deliver 4 3     | 0/0 2/0 2/0 2/0
         deliver 3 2     | 0/0 2/0 2/1 2/0
         deliver 4 3     | 0/0 2/0 2/1 2/0",
    ),
    // Each node tells all before it, the first of them by attaching.
    (
        "notices",
        "found 4 1 1 0 | 0/0
         begin 1 1     | 0/0 1/0
         deliver 2 1   | 0/0 2/0
         deliver 2 1   | 0/0 2/0
         begin 2 1     | 0/0 2/0 1/0
         deliver 3 1   | 0/0 2/0 2/0
         deliver 3 1   | 0/0 2/0 2/0
         deliver 3 2   | 0/0 2/0 2/1
         begin 3 1     | 0/0 2/0 2/1 1/0
         deliver 4 1   | 0/0 2/0 2/1 2/0
         deliver 4 1   | 0/0 2/0 2/1 2/0
         deliver 4 3   | 0/0 2/0 2/1 2/1
         deliver 4 2   | 0/0 2/0 2/1 2/2",
    ),
    // Node 4 copies from nodes that match it in 0, 1 and 2 digits, and waits for the last: d + 1 requests.
    (
        "d + 1",
        "found 2 3 1 000 | 0/0
         begin 001 1     | 0/0 1/0
         deliver 2 1     | 0/0 2/0
         deliver 2 1     | 0/0 2/0
         begin 011 1     | 0/0 2/0 1/0
         deliver 3 1     | 0/0 2/0 2/0
         deliver 3 2     | 0/0 2/0 3/0
         deliver 3 2     | 0/0 2/0 3/0
         begin 111 1     | 0/0 2/0 3/0 1/0
         deliver 4 1     | 0/0 2/0 3/0 2/0
         deliver 4 2     | 0/0 2/0 3/0 3/0
         deliver 4 3     | 0/0 2/0 3/0 4/0
         deliver 4 3     | 0/0 2/0 3/0 4/0",
    ),
    // Both wait for node 1; when node 2 has taken the place, node 3 is sent on to it.
    (
        "sent on",
        "found 2 2 1 00 | 0/0
         begin 01 1     | 0/0 1/0
         begin 11 1     | 0/0 1/0 1/0
         deliver 2 1    | 0/0 2/0 1/0
         deliver 3 1    | 0/0 2/0 2/0
         deliver 2 1    | 0/0 2/0 2/0
         deliver 3 1    | 0/0 2/0 3/0
         deliver 3 2    | 0/0 2/0 3/0",
    ),
    // As before, but node 3 is then withdrawn, and its number given to another id, and to its own again: it has its counts from its last beginning.
    (
        "withdrawn",
        "found 2 2 1 00 | 0/0
         begin 01 1     | 0/0 1/0
         begin 11 1     | 0/0 1/0 1/0
         deliver 2 1    | 0/0 2/0 1/0
         deliver 3 1    | 0/0 2/0 2/0
         withdraw 2     | 0/0 2/0 2/0
         deliver 2 1    | 0/0 2/0 2/0
         deliver 3 1    | 0/0 2/0 3/0
         withdraw 3     | 0/0 2/0
         withdraw 2     | 0/0 2/0
         begin 10 2     | 0/0 2/0 1/0
         deliver 3 2    | 0/0 2/0 2/0
         withdraw 3     | 0/0 2/0
         begin 11 1     | 0/0 2/0 1/0
         deliver 3 1    | 0/0 2/0 2/0
         deliver 3 2    | 0/0 2/0 3/0
         deliver 3 2    | 0/0 2/0 3/0
         withdraw 3     | 0/0 2/0 3/0",
    ),
    // The image of the smallest join is read in its place: the nodes that it has start with nothing.
    (
        "new runs",
        "found 2 2 1 0 | 0/0
         begin 1 1     | 0/0 1/0
         deliver 2 1   | 0/0 2/0
         deliver 2 1   | 0/0 2/0
         read 04010202010200000000010000000600010000010100010201010001020000010200010202010002 | 0/0 0/0
         begin 10 2    | 0/0 0/0 1/0
         deliver 3 2   | 0/0 0/0 2/0
         deliver 3 1   | 0/0 0/0 3/0
         deliver 3 1   | 0/0 0/0 3/0
         found 2 2 1 1 | 0/0
         begin 0 1     | 0/0 1/0",
    ),
    // Images of version 2, read twice: the nodes that they have go on from the counts there, and a new one starts with its first request.
    (
        "resumed",
        "found 2 2 1 0 | 0/0
         begin 1 1     | 0/0 1/0
         deliver 2 1   | 0/0 2/0
         write 2       | 0/0 2/0
         read 04020202010200000000010000000400010000010101000102000102020100020102010001000000000000000000000000000000000200000100 | 0/0 1/0
         deliver 2 1   | 0/0 2/0
         deliver 2 1   | 0/0 2/0
         begin 10 2    | 0/0 2/0 1/0
         read 040202020102000000000100000006000100000101000102010100010200000102000102020100020002033e0200 | 3/62 2/0
         begin 10 2    | 3/62 2/0 1/0
         deliver 3 2   | 3/62 2/0 2/0
         deliver 3 1   | 3/62 2/0 3/0
         deliver 3 1   | 3/62 2/0 3/0",
    ),
];

/// All of them: those written out, those with a request for each digit and one more, and the one with the most notices.
pub fn by_hand() -> Vec<Join> {
    let mut all: Vec<Join> = JOINS
        .iter()
        .map(|(name, text)| Join::parsed(name, text))
        .collect();
    all.extend((1..=8).map(all_digits));
    all.push(most_notices());
    all
}

/// Nodes 1 to d + 1, the ids of which have 0 to d digits 1 on the right, join one after the other by node 1. Node n copies from each before it in
/// turn, which sends it on by one digit, but for the last, for which it waits: n requests.
fn all_digits(digits: u64) -> Join {
    let mut join = Join::named(format!("{digits} digits"));
    let settings = [2, digits, 1];
    join.step(Call::Found { settings, id: 0 }, [0, 0]);
    for sender in 2..=digits + 1 {
        let id = 0x1111_1111 >> (4 * (9 - sender));
        join.step(Call::Begin { id, gateway: 1 }, [1, 0]);
        for receiver in 1..sender {
            join.step(Call::Deliver { sender, receiver }, [receiver + 1, 0]);
        }
        let receiver = sender - 1;
        join.step(Call::Deliver { sender, receiver }, [sender, 0]);
    }
    join
}

/// Node 1 knows all of 63, and the 64th tells them all: the first by attaching, each other by a notice.
fn most_notices() -> Join {
    let mut join = Join::named("62 notices".into());
    let ids: Vec<u32> = (0..64).map(|n| n / 4 + 16 * (n % 4)).collect();
    let known = (2..=63).map(|n: u8| [1, 0, (n - 1) / 4, n]);
    let image = image([16, 2, 4], &ids[..63], &known.collect::<Vec<_>>());
    join.step(Call::Read { image }, [0, 0]);
    join.steps[0].panels.resize(63, Panel::default());
    let (id, gateway, sender) = (ids[63], 1, 64);
    join.step(Call::Begin { id, gateway }, [1, 0]);
    let to_gateway = Call::Deliver {
        sender,
        receiver: gateway,
    };
    join.step(to_gateway.clone(), [2, 0]);
    join.step(to_gateway, [2, 0]);
    for receiver in 2..=63 {
        join.step(Call::Deliver { sender, receiver }, [2, receiver - 1]);
    }
    join
}

impl Join {
    fn named(name: String) -> Join {
        let steps = vec![];
        Join { name, steps }
    }

    fn parsed(name: &str, text: &str) -> Join {
        let steps = text.lines().map(Step::parsed).collect();
        Join {
            name: name.into(),
            steps,
        }
    }

    /// One more call, after which the newest node has these counts, and the others those from before. A beginning makes a node.
    fn step(&mut self, call: Call, [requests, notices]: [u64; 2]) {
        let before = self.steps.last();
        let mut panels = before.map_or(vec![], |step| step.panels.clone());
        if panels.is_empty() || matches!(call, Call::Begin { .. }) {
            panels.push(Panel::default());
        }
        *panels.last_mut().expect("a node") = Panel { requests, notices };
        let line = Line::Call(call);
        self.steps.push(Step { line, panels });
    }

    pub fn script(&self) -> Script {
        let lines = self.steps.iter().map(|step| step.line.clone());
        Script {
            lines: lines.collect(),
        }
    }
}

impl Step {
    fn parsed(text: &str) -> Step {
        let (line, counts) = text.split_once('|').expect("a line and its counts");
        let panel = |pair: &str| {
            let (requests, notices) = pair.split_once('/').expect("two counts");
            let [requests, notices] = [requests, notices].map(|count| count.parse().expect(pair));
            Panel { requests, notices }
        };
        Step {
            line: line.parse().expect(text),
            panels: counts.split_whitespace().map(panel).collect(),
        }
    }

    /// The state has these counts, and none for a number that no node has.
    pub fn stands_in(&self, state: &State) -> bool {
        let mut expected = self.panels.clone();
        expected.resize(MOST_NODES, Panel::default());
        panels(state)[..] == expected
    }
}
