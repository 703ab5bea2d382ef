//! The language of scripts, read as docs/REPLAY.md has it.

use trials::script::set_of;

#[derive(Clone, Debug, PartialEq, Eq)]
pub enum Command {
    Found { settings: [u64; 3], id: u32 },
    Begin { id: u32, gateway: u64 },
    Withdraw { node: u64 },
    Deliver { sender: u64, receiver: u64 },
    Lookup { from: u64, to: u64, failed: u64 },
    Verdict,
    Survey { failed: u64 },
    Sound,
    Save { file: Vec<u8>, version: u64 },
    Load { file: Vec<u8> },
    Trace { file: Vec<u8> },
    Fill,
    Table { node: u64 },
    Panel,
}

#[derive(Clone, Debug, PartialEq, Eq)]
pub enum Line {
    /// No word: no answer.
    Empty,
    NotUnderstood,
    Command(Command),
}

/// The lines of a script, by their number.
pub fn lines(script: &[u8]) -> impl Iterator<Item = (usize, Line)> + '_ {
    (1..).zip(script.split(|&byte| byte == b'\n').map(line))
}

fn line(text: &[u8]) -> Line {
    let text = text.split(|&byte| byte == b'#').next().expect("one piece");
    let words: Vec<&[u8]> = text
        .split(|byte| b" \t\r".contains(byte))
        .filter(|word| !word.is_empty())
        .collect();
    match command(&words) {
        _ if words.is_empty() => Line::Empty,
        None => Line::NotUnderstood,
        Some(command) => Line::Command(command),
    }
}

fn command(words: &[&[u8]]) -> Option<Command> {
    Some(match *words {
        [b"found", base, digits, depth, name] => Command::Found {
            settings: [number(base)?, number(digits)?, number(depth)?],
            id: id(name)?,
        },
        [b"begin", name, gateway] => Command::Begin {
            id: id(name)?,
            gateway: number(gateway)?,
        },
        [b"withdraw", node] => Command::Withdraw {
            node: number(node)?,
        },
        [b"deliver", sender, receiver] => Command::Deliver {
            sender: number(sender)?,
            receiver: number(receiver)?,
        },
        [b"lookup", from, to, ref without @ ..] => Command::Lookup {
            from: number(from)?,
            to: number(to)?,
            failed: failed(without)?,
        },
        [b"verdict"] => Command::Verdict,
        [b"survey", ref without @ ..] => Command::Survey {
            failed: failed(without)?,
        },
        [b"sound"] => Command::Sound,
        [b"save", file] => save(file, 1),
        [b"save", file, version] => save(file, number(version)?),
        [b"load", file] => Command::Load { file: file.into() },
        [b"trace", file] => Command::Trace { file: file.into() },
        [b"fill"] => Command::Fill,
        [b"table", node] => Command::Table {
            node: number(node)?,
        },
        [b"panel"] => Command::Panel,
        _ => return None,
    })
}

fn save(file: &[u8], version: u64) -> Command {
    let file = file.into();
    Command::Save { file, version }
}

/// The failed nodes at the end of a line: none, or `without` and at least one number.
fn failed(words: &[&[u8]]) -> Option<u64> {
    match words {
        [] => Some(0),
        [b"without", nodes @ ..] if !nodes.is_empty() => {
            let nodes: Option<Vec<u64>> = nodes.iter().map(|node| number(node)).collect();
            nodes.map(|nodes| set_of(&nodes))
        }
        _ => None,
    }
}

/// In decimal, of 64 bits.
fn number(word: &[u8]) -> Option<u64> {
    digits(word, 10)?.parse().ok()
}

/// In hexadecimal, of 32 bits.
fn id(word: &[u8]) -> Option<u32> {
    u32::from_str_radix(digits(word, 16)?, 16).ok()
}

/// The word as text if it is made of digits alone: no sign, no prefix.
fn digits(word: &[u8], radix: u32) -> Option<&str> {
    let text = std::str::from_utf8(word).ok()?;
    text.chars().all(|c| c.is_digit(radix)).then_some(text)
}
