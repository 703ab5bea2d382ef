//! A script: one line a call, or a change of the memory between calls.
//!
//! ```text
//! found 2 2 1 0            base, digits, depth; id in hexadecimal
//! read 0401020201..        an image in hexadecimal, nothing for an empty one
//! begin 1 1                id in hexadecimal; gateway
//! withdraw 2               node
//! deliver 2 1              sender, receiver
//! lookup 1 2               from, to
//! lookup 1 2 without 3 5   the same while nodes 3 and 5 have failed; numbers outside 1 to 64 mean nothing
//! verdict
//! write                    an image of version 1
//! write 2                  of this version
//! sound                    what sentences 1 and 2 say of the memory
//! survey
//! survey without 3         the same while node 3 has failed
//! trace 01020102           a trace in hexadecimal, nothing for an empty one
//! fill                     lists its additions in the output
//! lend 520 32768 25226     words of state, bytes of tables and of output lent from here on
//! word 12 5                state word 12 becomes 5 (hexadecimal), by the caller's hand
//! byte 300 7               table byte 300 becomes 7 (hexadecimal), by the caller's hand
//! ```

use std::fmt::{self, Display, Formatter};
use std::num::ParseIntError;
use std::str::FromStr;

use crate::second::NodeSet;

#[derive(Clone, Debug, PartialEq, Eq)]
pub enum Call {
    Found { settings: [u64; 3], id: u32 },
    Read { image: Vec<u8> },
    Begin { id: u32, gateway: u64 },
    Withdraw { node: u64 },
    Deliver { sender: u64, receiver: u64 },
    Lookup { from: u64, to: u64, failed: u64 },
    Verdict,
    Write { version: u64 },
    Sound,
    Survey { failed: u64 },
    Trace { trace: Vec<u8> },
    Fill,
}

impl Call {
    /// Writing an image of a network whose nodes are all in system.
    pub const WRITE_1: Call = Call::Write { version: 1 };
    /// Writing an image with the joins under way and the counts.
    pub const WRITE_2: Call = Call::Write { version: 2 };

    /// How many bytes of the output it has written, by its answer.
    pub fn written(&self, answer: u64) -> usize {
        let field = (answer >> 8) as usize;
        match self {
            _ if answer & 0xff != 0 => 0,
            Call::Write { .. } => field,
            Call::Fill => 4 * field,
            _ => 0,
        }
    }
}

/// These nodes as the calls take them: bit u − 1 for node u. Numbers outside 1 to 64 mean nothing.
pub fn set_of(nodes: &[u64]) -> u64 {
    let bit = |&node: &u64| match node {
        1..=64 => 1 << (node - 1),
        _ => 0,
    };
    nodes.iter().map(bit).fold(0, |set, bit| set | bit)
}

#[derive(Clone, Debug, PartialEq, Eq)]
pub enum Line {
    Call(Call),
    Lend(Lend),
    Word { place: usize, value: u64 },
    Byte { place: usize, value: u8 },
}

/// How much of each memory is lent.
#[derive(Clone, Copy, Debug, PartialEq, Eq)]
pub struct Lend {
    pub state: usize,
    pub tables: usize,
    pub out: usize,
}

#[derive(Clone, Debug, Default, PartialEq, Eq)]
pub struct Script {
    pub lines: Vec<Line>,
}

impl Script {
    pub fn call(&mut self, call: Call) {
        self.lines.push(Line::Call(call));
    }
}

impl Display for Call {
    fn fmt(&self, out: &mut Formatter) -> fmt::Result {
        match self {
            Call::Found { settings, id } => {
                let [base, digits, depth] = settings;
                write!(out, "found {base} {digits} {depth} {id:x}")
            }
            Call::Read { image } => write_bytes(out, "read ", image),
            Call::Begin { id, gateway } => write!(out, "begin {id:x} {gateway}"),
            Call::Withdraw { node } => write!(out, "withdraw {node}"),
            Call::Deliver { sender, receiver } => write!(out, "deliver {sender} {receiver}"),
            Call::Lookup { from, to, failed } => {
                write!(out, "lookup {from} {to}")?;
                write_failed(out, *failed)
            }
            Call::Verdict => out.write_str("verdict"),
            Call::Write { version: 1 } => out.write_str("write"),
            Call::Write { version } => write!(out, "write {version}"),
            Call::Sound => out.write_str("sound"),
            Call::Survey { failed } => {
                out.write_str("survey")?;
                write_failed(out, *failed)
            }
            Call::Trace { trace } => write_bytes(out, "trace ", trace),
            Call::Fill => out.write_str("fill"),
        }
    }
}

/// A call's name and its bytes in hexadecimal.
fn write_bytes(out: &mut Formatter, name: &str, bytes: &[u8]) -> fmt::Result {
    out.write_str(name)?;
    bytes.iter().try_for_each(|byte| write!(out, "{byte:02x}"))
}

/// The failed nodes behind a call, nothing if there are none.
fn write_failed(out: &mut Formatter, failed: u64) -> fmt::Result {
    if failed != 0 {
        out.write_str(" without")?;
    }
    NodeSet(failed)
        .iter()
        .try_for_each(|node| write!(out, " {node}"))
}

impl Display for Line {
    fn fmt(&self, out: &mut Formatter) -> fmt::Result {
        match self {
            Line::Call(call) => call.fmt(out),
            Line::Lend(lend) => write!(out, "lend {} {} {}", lend.state, lend.tables, lend.out),
            Line::Word { place, value } => write!(out, "word {place} {value:x}"),
            Line::Byte { place, value } => write!(out, "byte {place} {value:x}"),
        }
    }
}

impl Display for Script {
    fn fmt(&self, out: &mut Formatter) -> fmt::Result {
        self.lines
            .iter()
            .try_for_each(|line| writeln!(out, "{line}"))
    }
}

impl FromStr for Script {
    type Err = String;

    fn from_str(text: &str) -> Result<Script, String> {
        let lines = text.lines().filter(|line| !line.trim().is_empty());
        let lines = lines.map(Line::from_str).collect::<Result<_, _>>()?;
        Ok(Script { lines })
    }
}

impl FromStr for Line {
    type Err = String;

    fn from_str(text: &str) -> Result<Line, String> {
        let words: Vec<&str> = text.split_whitespace().collect();
        let line = parse_line(&words).map_err(|error| format!("{text}: {error}"))?;
        line.ok_or_else(|| format!("{text}: no such line"))
    }
}

/// None for words that make no line.
fn parse_line(words: &[&str]) -> Result<Option<Line>, ParseIntError> {
    let id = |word| u32::from_str_radix(word, 16);
    let call = match *words {
        ["found", base, digits, depth, number] => Call::Found {
            settings: [base.parse()?, digits.parse()?, depth.parse()?],
            id: id(number)?,
        },
        ["read", ref image @ ..] if may_be_bytes(image) => Call::Read {
            image: parse_bytes(&image.concat())?,
        },
        ["begin", number, gateway] => Call::Begin {
            id: id(number)?,
            gateway: gateway.parse()?,
        },
        ["withdraw", node] => Call::Withdraw {
            node: node.parse()?,
        },
        ["deliver", sender, receiver] => Call::Deliver {
            sender: sender.parse()?,
            receiver: receiver.parse()?,
        },
        ["lookup", from, to, ref without @ ..] if may_follow(without) => Call::Lookup {
            from: from.parse()?,
            to: to.parse()?,
            failed: parse_failed(without)?,
        },
        ["verdict"] => Call::Verdict,
        ["write"] => Call::WRITE_1,
        ["write", version] => parse_writing(version)?,
        ["sound"] => Call::Sound,
        ["survey", ref without @ ..] if may_follow(without) => Call::Survey {
            failed: parse_failed(without)?,
        },
        ["trace", ref trace @ ..] if may_be_bytes(trace) => Call::Trace {
            trace: parse_bytes(&trace.concat())?,
        },
        ["fill"] => Call::Fill,
        _ => return parse_memory_line(words),
    };
    Ok(Some(Line::Call(call)))
}

fn parse_writing(version: &str) -> Result<Call, ParseIntError> {
    let version = version.parse()?;
    Ok(Call::Write { version })
}

fn parse_memory_line(words: &[&str]) -> Result<Option<Line>, ParseIntError> {
    Ok(Some(match *words {
        ["lend", state, tables, out] => Line::Lend(Lend {
            state: state.parse()?,
            tables: tables.parse()?,
            out: out.parse()?,
        }),
        ["word", place, value] => Line::Word {
            place: place.parse()?,
            value: u64::from_str_radix(value, 16)?,
        },
        ["byte", place, value] => Line::Byte {
            place: place.parse()?,
            value: u8::from_str_radix(value, 16)?,
        },
        _ => return Ok(None),
    }))
}

/// May these words stand behind a call that takes failed nodes?
fn may_follow(words: &[&str]) -> bool {
    matches!(words, [] | ["without", _, ..])
}

/// The nodes behind `without`.
fn parse_failed(words: &[&str]) -> Result<u64, ParseIntError> {
    let numbers = words.iter().skip(1).map(|word| word.parse());
    let numbers: Vec<u64> = numbers.collect::<Result<_, _>>()?;
    Ok(set_of(&numbers))
}

/// May this be pairs of hexadecimal digits in one word, or nothing?
fn may_be_bytes(words: &[&str]) -> bool {
    match *words {
        [] => true,
        [word] => word.len() % 2 == 0 && word.is_ascii(),
        _ => false,
    }
}

/// Pairs of hexadecimal digits.
fn parse_bytes(text: &str) -> Result<Vec<u8>, ParseIntError> {
    (0..text.len())
        .step_by(2)
        .map(|at| u8::from_str_radix(&text[at..at + 2], 16))
        .collect()
}
