//! One script on two engines: every answer, every byte of memory, output and counts after every call, what any
//! engine must leave alone, what a refusal may have beside its number, that a lookup is between nodes that have not failed
//! and not too long, that a survey adds up, that a trace is answered as it reads, that a withdrawn node is gone, that short
//! entries are filled as the literal filling does, that an image is written and restored as its state has it, and that each node's two counts are those
//! of the history.

use std::fmt::{self, Display, Formatter};
use std::ops::Range;

use crate::engine::Engine;
use crate::failures::fits;
use crate::fills::is_filled;
use crate::lent::Lent;
use crate::panel::History;
use crate::resumed;
use crate::script::{Call, Line, Script};
use crate::second::memory::{COUNT, MOST_NODES, STATE_WORDS, TABLE_BYTES};
use crate::second::{LOST, MOST_ADDED_BYTES};
use crate::surveys::adds_up;
use crate::traces;
use crate::withdrawals::is_gone;

/// Where the first difference was, and what it was.
#[derive(Debug)]
pub struct Difference {
    pub line: usize,
    pub what: String,
}

impl Difference {
    /// The difference with its seed and the script up to it.
    pub fn report(&self, seed: u64, script: &Script) -> String {
        let lines = script.lines[..=self.line].to_vec();
        format!("seed {seed}\n{}{self}", Script { lines })
    }
}

impl Display for Difference {
    fn fmt(&self, out: &mut Formatter) -> fmt::Result {
        write!(out, "line {}: {}", self.line + 1, self.what)
    }
}

/// Two engines, each with the same memory of its own.
pub struct Pair<'a> {
    engines: [&'a dyn Engine; 2],
    memories: [Lent; 2],
    before: Lent,
    history: History,
}

impl<'a> Pair<'a> {
    pub fn new(a: &'a dyn Engine, b: &'a dyn Engine) -> Pair<'a> {
        Pair {
            engines: [a, b],
            memories: [Lent::noise(), Lent::noise()],
            before: Lent::noise(),
            history: History::from_here(Lent::noise().used_state()),
        }
    }

    pub fn memory(&self) -> &Lent {
        &self.memories[0]
    }

    pub fn history(&self) -> &History {
        &self.history
    }

    /// Does what the line says with both engines; a call's packed answer, 0 for other lines.
    pub fn obey(&mut self, line: &Line) -> Result<u64, String> {
        self.memories.iter_mut().for_each(Lent::spoil_counts);
        self.before.clone_from(&self.memories[0]);
        let [answer, other] = [0, 1].map(|at| self.memories[at].obey(self.engines[at], line));
        self.differ(answer, other)?;
        let after = &self.memories[0];
        left_alone(line, answer, &self.before, after)?;
        if let Line::Call(call) = line {
            self.may_answer(call, answer)?;
        }
        self.history.note(line, answer, after.used_state());
        self.history.stands_in(after.used_state())?;
        Ok(answer)
    }

    /// What any engine must keep to in what it answers.
    fn may_answer(&self, call: &Call, answer: u64) -> Result<(), String> {
        let (before, after) = (&self.before, &self.memories[0]);
        let taken = answer & 0xff == 0;
        match call {
            Call::Lookup { from, to, failed } if taken => {
                fits(after.used_state(), [*from, *to], *failed, answer)
            }
            Call::Survey { failed } if taken => {
                adds_up(after.used_state(), *failed, after.used_counts())
            }
            Call::Withdraw { node } if taken => is_gone(*node, answer, before, after),
            Call::Fill => is_filled(before, after, answer),
            Call::Trace { trace } if !matches!(answer, 1 | 2) => reads_so(after, trace, answer),
            Call::Write { version } if taken => is_written(after, *version, answer),
            Call::Read { image } if matches!(answer, 0 | 24) => is_restored(after, image, answer),
            _ => Ok(()),
        }
    }

    /// Puts words and bytes at the start of both memories; each node starts with the counts that it has there.
    pub fn restore(&mut self, words: &[u64], bytes: &[u8]) {
        for memory in &mut self.memories {
            memory.state[..words.len()].copy_from_slice(words);
            memory.tables[..bytes.len()].copy_from_slice(bytes);
        }
        self.history = History::from_here(self.memories[0].used_state());
    }

    fn differ(&self, answer: u64, other: u64) -> Result<(), String> {
        let [a, b] = &self.memories;
        let names = self.engines.map(Engine::name);
        if answer != other {
            let [one, two] = names;
            return Err(format!("{one} and {two} answer {answer:#x} and {other:#x}"));
        }
        same_network(names, a, b)?;
        same(names, "output byte", &a.out, &b.out)?;
        same(names, "count", &a.counts, &b.counts)
    }
}

pub fn compare(a: &dyn Engine, b: &dyn Engine, script: &Script) -> Result<(), Difference> {
    let mut pair = Pair::new(a, b);
    for (number, line) in script.lines.iter().enumerate() {
        let judged = pair.obey(line);
        judged.map_err(|what| Difference { line: number, what })?;
    }
    Ok(())
}

/// Every word of state and byte of tables, lent or not, is the same in two memories.
pub fn same_network(names: [&str; 2], a: &Lent, b: &Lent) -> Result<(), String> {
    same(names, "state word", &a.state, &b.state)?;
    same(names, "table byte", &a.tables, &b.tables)
}

/// The parts of each memory that a call may write, rising.
struct Parts {
    state: [Range<usize>; 2],
    tables: Range<usize>,
    out: Range<usize>,
    counts: Range<usize>,
}

const NOTHING: Parts = Parts {
    state: [0..0, 0..0],
    tables: 0..0,
    out: 0..0,
    counts: 0..0,
};

fn may_write(call: &Call, answer: u64) -> Parts {
    match call {
        _ if answer & 0xff != 0 => NOTHING,
        Call::Found { .. } | Call::Read { .. } | Call::Begin { .. } | Call::Deliver { .. } => {
            Parts {
                state: [0..0, 0..STATE_WORDS],
                tables: 0..TABLE_BYTES,
                ..NOTHING
            }
        }
        Call::Withdraw { node } => of_node(*node),
        Call::Lookup { .. } | Call::Verdict | Call::Sound | Call::Trace { .. } => NOTHING,
        Call::Write { .. } => Parts {
            out: 0..call.written(answer),
            ..NOTHING
        },
        Call::Survey { .. } => Parts {
            counts: 0..LOST + 1,
            ..NOTHING
        },
        Call::Fill => Parts {
            tables: 0..TABLE_BYTES,
            out: 0..MOST_ADDED_BYTES.min(call.written(answer)),
            ..NOTHING
        },
    }
}

/// The number of nodes, and a node's record and table; nothing for a number that no node can have.
fn of_node(node: u64) -> Parts {
    let numbers = 1..=MOST_NODES as u64;
    if !numbers.contains(&node) {
        return NOTHING;
    }
    let node = node as usize;
    Parts {
        state: [COUNT..COUNT + 1, 8 * node..8 * node + 8],
        tables: 512 * (node - 1)..512 * node,
        ..NOTHING
    }
}

/// What a call may not touch: guards always, everything on a refusal, the state in a call that only looks.
fn left_alone(line: &Line, answer: u64, before: &Lent, after: &Lent) -> Result<(), String> {
    let Line::Call(call) = line else {
        return Ok(());
    };
    let refused = answer & 0xff != 0;
    if refused && !may_be_refused(call, answer) {
        return Err(format!("a refusal with other fields: {answer:#x}"));
    }
    let Parts {
        state,
        tables,
        out,
        counts,
    } = may_write(call, answer);
    same_outside(&state, "state word", &before.state, &after.state)?;
    same_outside(&[tables], "table byte", &before.tables, &after.tables)?;
    same_outside(&[out], "output byte", &before.out, &after.out)?;
    same_outside(&[counts], "count", &before.counts, &after.counts)
}

/// The same before and after but in these parts, which rise.
fn same_outside<T: PartialEq + Display>(
    parts: &[Range<usize>],
    what: &str,
    before: &[T],
    after: &[T],
) -> Result<(), String> {
    let end = before.len()..before.len();
    let mut from = 0;
    for part in parts.iter().chain([&end]) {
        let (old, new) = (&before[from..part.start], &after[from..part.start]);
        same(["before", "after"], what, old, new).map_err(|what| format!("from {from}, {what}"))?;
        from = part.end;
    }
    Ok(())
}

/// A trace in a sound state.
fn reads_so(memory: &Lent, trace: &[u8], answer: u64) -> Result<(), String> {
    let expected = traces::judged(memory, trace);
    if answer != expected {
        return Err(format!("answered {answer:#x}, and reads {expected:#x}"));
    }
    Ok(())
}

/// An image of a sound state.
fn is_written(memory: &Lent, version: u64, answer: u64) -> Result<(), String> {
    let (state, tables) = (memory.used_state(), memory.used_tables());
    let expected = resumed::written(state, tables, version as u8);
    let length = (answer >> 8) as usize;
    match memory.out.get(..length) == Some(&expected[..]) && matches!(version, 1 | 2) {
        true => Ok(()),
        false => Err(format!("version {version} is not the state's image")),
    }
}

/// An image that is taken, or refused by the last number that one can be.
fn is_restored(memory: &Lent, image: &[u8], answer: u64) -> Result<(), String> {
    let expected = resumed::read_behind(image);
    let left = expected.restored.is_none_or(|restored| {
        memory.used_state() == &*restored.state && memory.used_tables() == &*restored.tables
    });
    match answer == expected.answer && left {
        true => Ok(()),
        false => Err(format!(
            "answered {answer:#x}, and reads {:#x}, or is restored otherwise",
            expected.answer
        )),
    }
}

/// A refusal has no other field, but that of a record has its place in the image, where 18 may have none, and that of a node or a step of a trace its path
/// and place, which `reads_so` judges.
fn may_be_refused(call: &Call, answer: u64) -> bool {
    let (refusal, place) = (answer & 0xff, answer >> 8);
    match (call, refusal) {
        (Call::Read { image }, 10 | 17) => (1..=record_count(image)).contains(&place),
        (Call::Read { image }, 18) => place <= record_count(image),
        (Call::Trace { .. }, 9 | 23) => place != 0,
        _ => place == 0,
    }
}

/// By its own count; none where that is missing.
fn record_count(image: &[u8]) -> u64 {
    let head = image.get(5).map_or(0, |&nodes| 8 + 4 * usize::from(nodes));
    let count = image.get(..head).and_then(<[u8]>::last_chunk);
    count.map_or(0, |&count| u16::from_le_bytes(count).into())
}

fn same<T: PartialEq + Display>(
    names: [&str; 2],
    what: &str,
    a: &[T],
    b: &[T],
) -> Result<(), String> {
    if a == b {
        return Ok(());
    }
    let mut pairs = a.iter().zip(b).enumerate();
    let (place, (one, other)) = pairs
        .find(|(_, (one, other))| one != other)
        .expect("of one length");
    let ([first, second], length) = (names, a.len());
    Err(format!(
        "{first} and {second}: {what} {place} of {length} is {one} and {other}"
    ))
}
