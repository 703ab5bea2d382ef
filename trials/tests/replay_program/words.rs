//! Answers in words.

use trials::second::memory;
use trials::second::network::{Network, Node, Panel, Status};
use trials::second::table::Table;
use trials::second::{lent_and_sound, Counts, Refusal, LOST};

const SENTENCES: [&str; 25] = [
    "",
    "the lent memory is too short",
    "the state is not sound",
    "the image has fewer than 5 bytes or does not begin with 4",
    "the version is neither 1 nor 2",
    "a setting is out of range",
    "the image's node count is wrong, or its length differs from its counts",
    "an id has a digit not below the base, or a bit above its digits",
    "an id is taken already",
    "a node number is 0 or above the number of nodes",
    "a level or digit is out of range, or the record is below the one before it",
    "there are 64 nodes already",
    "the gateway is not settled",
    "no request from the first node to the second is outstanding",
    "the receiver of a wait request is not settled",
    "a node is not settled",
    "the memory for the output is too short",
    "the neighbour is not qualified, is in its entry already, or finds it full",
    "an own entry does not start with its owner",
    "the node is not the highest-numbered one",
    "the node is settled or notifying",
    "the start or the destination has failed",
    "the trace is empty, a path's count is not 1 to 9, or the length does not fit",
    "the step goes to no node of the lookup's entry, or past the destination",
    "the image's state is not sound",
];

/// Of 18 without a place.
const NO_OWN_RECORD: &str = "an own entry has no record";

pub fn field(answer: u64, k: u64) -> u64 {
    answer >> (8 * k) & 0xff
}

/// The words of a packed answer, unless it is a refusal: above that one, reading has the place of a record, and every other call but
/// the check of a trace nothing.
pub fn said(answer: u64, words: impl FnOnce(u64) -> String) -> String {
    match field(answer, 0) {
        0 => words(answer),
        refusal => refused(refusal, answer >> 8),
    }
}

pub fn refused(refusal: u64, place: u64) -> String {
    let sentence = match (refusal, place) {
        (18, 0) => NO_OWN_RECORD,
        _ => SENTENCES[refusal as usize],
    };
    match place {
        0 => format!("refused {refusal}: {sentence}"),
        _ => format!("refused {refusal} at record {place}: {sentence}"),
    }
}

/// The words of a trace: how many paths it has, or its refusal, 9 with the place and 23 with the step.
pub fn traced(answer: u64, trace: &[u8]) -> String {
    let (path, place) = (field(answer, 1), field(answer, 2));
    match field(answer, 0) {
        0 => match trace[0] {
            1 => "trace: 1 path accepted".into(),
            paths => format!("trace: {paths} paths accepted"),
        },
        9 => format!("refused 9 at path {path}, place {place}: {}", SENTENCES[9]),
        23 => format!("refused 23 at path {path}, step {place}: {}", SENTENCES[23]),
        refusal => refused(refusal, 0),
    }
}

pub fn delivered(answer: u64) -> String {
    let kind = match field(answer, 1) {
        1 => "copied".into(),
        2 => "sent on".into(),
        3 => format!("attached at level {}", field(answer, 2)),
        _ => "notified".to_string(),
    };
    let settled = if field(answer, 3) == 1 {
        ", settled"
    } else {
        ""
    };
    format!("deliver: {kind}{settled}")
}

pub fn looked_up(answer: u64) -> String {
    let how = if field(answer, 1) == 1 {
        "arrived"
    } else {
        "lost"
    };
    let hops = field(answer, 2);
    let unit = if hops == 1 { "hop" } else { "hops" };
    format!("lookup: {how} at {} in {hops} {unit}", field(answer, 3))
}

pub fn judged(answer: u64) -> String {
    if field(answer, 1) == 1 {
        return "verdict: consistent".into();
    }
    let (node, level, digit) = (field(answer, 2), field(answer, 3), field(answer, 4));
    format!("verdict: node {node} level {level} digit {digit:x} falls short")
}

/// The pairs, then each count with a bar for its share of them: a mark for each 2 % begun.
pub fn surveyed(digits: usize, counts: &Counts) -> String {
    let pairs: u64 = counts.iter().sum();
    let hops = (1..).zip(&counts[..digits]);
    let hops = hops.map(|(hops, count)| (format!("hops {hops}"), count));
    let mut words = format!("survey: {pairs} pairs");
    for (name, &count) in hops.chain([("lost".to_string(), &counts[LOST])]) {
        words += &format!("\n  {name:<6} {count:>4}");
        if count > 0 {
            let marks = (50 * count).div_ceil(pairs);
            words += &format!(" {}", "#".repeat(marks as usize));
        }
    }
    words
}

/// How many were added, then each by its entry.
pub fn filled(answer: u64, list: &[u8]) -> String {
    let count = (answer >> 8) as usize;
    let unit = if count == 1 { "addition" } else { "additions" };
    let mut words = format!("fill: {count} {unit}");
    for [node, level, digit, near] in &list.as_chunks().0[..count] {
        words += &format!("\n  node {node} level {level} digit {digit:x} gains {near}");
    }
    words
}

/// The words of what no call answers, or of its refusal.
pub fn shown(words: Result<String, Refusal>) -> String {
    words.unwrap_or_else(|refusal| refused(refusal as u64, 0))
}

/// A node's id, status and counts.
fn described(network: &Network, number: usize) -> String {
    let Node { id, status, panel } = network.node(number);
    let status = match status {
        Status::InSystem => "settled",
        Status::Copying { .. } => "copying",
        Status::Waiting { .. } => "waiting",
        Status::Notifying { .. } => "notifying",
    };
    let digits = network.settings.digits();
    let Panel { requests, notices } = panel;
    format!("id {id:0digits$x}, {status}, requests {requests}, notices {notices}")
}

/// A line for each node.
pub fn panelled(state: &[u64], tables: &[u8]) -> Result<String, Refusal> {
    let (state, _) = lent_and_sound(state, tables)?;
    let network = Network::decode(state);
    let line = |(number, _)| format!("node {number}: {}", described(&network, number));
    let lines: Vec<String> = network.iter().map(line).collect();
    Ok(lines.join("\n"))
}

/// A node, then a line for each of its entries that is not empty.
pub fn tabled(state: &[u64], tables: &[u8], node: u64) -> Result<String, Refusal> {
    let (state, tables) = lent_and_sound(state, tables)?;
    let network = Network::decode(state);
    let number = network.number(node)?;
    let mut words = format!("table {number}: {}", described(&network, number));
    let table = Table::decode(network.settings, memory::table_bytes(tables, number));
    for (level, digit, entry) in table.iter().filter(|(.., entry)| !entry.is_empty()) {
        words += &format!("\n  level {level} digit {digit:x}:");
        entry.iter().for_each(|node| words += &format!(" {node}"));
    }
    Ok(words)
}
