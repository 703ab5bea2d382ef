//! Scripts that are none: random bytes, random words, and scripts cut and changed at any place.
//!
//! No byte is a slash, so that no script names a file outside its folder.

use std::collections::BTreeMap;

use trials::random::{seeds, Rng};

use crate::player::expected;
use crate::scripts::script;
use crate::support::{replay, File, Folder};

/// Bytes that end words, lines and comments, or look as if they did.
const SPECIAL: [u8; 16] = [
    0, 1, 9, 10, 10, 11, 12, 13, 32, 35, b'0', b'g', 127, 0x85, 0xa0, 255,
];

/// The commands, each with how many words stand behind it.
const COMMANDS: [(&str, usize); 14] = [
    ("found", 4),
    ("begin", 2),
    ("withdraw", 1),
    ("deliver", 2),
    ("lookup", 2),
    ("verdict", 0),
    ("survey", 0),
    ("sound", 0),
    ("save", 1),
    ("load", 1),
    ("trace", 1),
    ("fill", 0),
    ("table", 1),
    ("panel", 0),
];

/// What may stand behind a command.
const SMALL: &str = "0 1 1 1 1 2 2 2 3 4 5 8 10 11 16 64 a saved0 image0 trace0";

/// What may stand there too, and what mostly may not.
const ODD: &str = "foun founds Found tabl surveys pane panels Panel withdra withdraws Withdraw withdrawal without without withou withouts Without trac traces Trace traced fil fills Fill filled write verdict sound panel 17 65 257 f FF \
    g 0x1 -1 +1 1.0 1, . .. ffffffff 100000000 \
    1ffffffff 9223372036854775808 18446744073709551615 18446744073709551616 18446744073709551617 \
    99999999999999999999 00000000000000000000000000000001 0000000000000000ffffffff";

/// Plays the script on both sides, each in a folder with these files; answers what was printed.
fn agree(script: &[u8], files: &[File], case: &str) -> String {
    let (ours, theirs) = (Folder::holding(files), Folder::holding(files));
    let expected = expected(script, &ours);
    let printed = replay(script, &theirs);
    let text = || {
        script[..script.len().min(20_000)]
            .escape_ascii()
            .to_string()
    };
    assert_eq!(printed, expected, "{case}: {}", text());
    assert_eq!(theirs.files(), ours.files(), "{case}: {}", text());
    printed
}

/// Counts the answers by their first word, and those that an end has failed.
fn tally(counts: &mut BTreeMap<String, usize>, printed: &str) {
    for line in printed.lines().filter(|line| !line.starts_with(' ')) {
        let first = line.split([' ', ':']).next().expect("a word");
        *counts.entry(first.to_string()).or_default() += 1;
        if line.starts_with("refused 21: ") {
            *counts.entry("failed".into()).or_default() += 1;
        }
    }
}

/// Without one of these the trial would be one of too little.
fn all_kinds(counts: &BTreeMap<String, usize>) -> bool {
    let kinds = [
        "found", "begin", "withdraw", "deliver", "lookup", "verdict", "survey", "sound", "save",
        "load", "trace", "fill", "table", "node", "refused", "failed", "line",
    ];
    kinds.iter().all(|&kind| counts.contains_key(kind))
}

fn byte(rng: &mut Rng) -> u8 {
    match rng.below(3) {
        0 => rng.word() as u8,
        _ => rng.pick(&SPECIAL),
    }
}

/// A place in the script, its end included.
fn place(rng: &mut Rng, script: &[u8]) -> usize {
    rng.below(script.len() + 1)
}

/// From one place to a later one, mostly not far from it.
fn span(rng: &mut Rng, script: &[u8]) -> std::ops::Range<usize> {
    let from = place(rng, script);
    let far = rng.pick(&[1, 4, 20, 100, script.len() + 1]);
    from..(from + rng.below(far + 1)).min(script.len())
}

fn word(rng: &mut Rng) -> &'static str {
    let words = if rng.once_in(6) { ODD } else { SMALL };
    rng.pick(&words.split_whitespace().collect::<Vec<_>>())
}

/// A command with about as many words as it has, or a word that is none; behind a lookup or a survey often failed nodes, or what looks like them.
fn words(rng: &mut Rng) -> Vec<u8> {
    let (name, count) = rng.pick(&COMMANDS);
    let name = if rng.once_in(20) { word(rng) } else { name };
    let count = match rng.below(12) {
        0 => count + 1,
        1 if count > 0 => count - 1,
        _ => count,
    };
    let mut behind: Vec<&str> = (0..count).map(|_| word(rng)).collect();
    let often = if matches!(name, "lookup" | "survey") {
        2
    } else {
        30
    };
    if rng.once_in(often) {
        let numbers = rng.pick(&[0, 1, 1, 2, 3, 8]);
        behind.push(if rng.once_in(20) {
            word(rng)
        } else {
            "without"
        });
        behind.extend((0..numbers).map(|_| word(rng)));
    }
    let mut line = name.to_string();
    for word in behind {
        let separator = rng.pick(&[" ", " ", " ", " ", " ", "\t", "  ", "\r"]);
        let separator = if rng.once_in(40) { "#" } else { separator };
        line += separator;
        line += word;
    }
    line.into_bytes()
}

/// Something long, as a word or more.
fn long(rng: &mut Rng) -> Vec<u8> {
    let length = rng.pick(&[30, 300, 5_000, 100_000]);
    let unit: &[u8] = rng.pick(&[
        b"0", b"1", b"f", b" ", b"\t", b"\r", b"#", b"\0", b"a ", b"1 ",
    ]);
    unit.repeat(length / unit.len())
}

/// Changes the script at one place.
fn change(rng: &mut Rng, script: &mut Vec<u8>) {
    let (at, part) = (place(rng, script), span(rng, script));
    match rng.below(12) {
        0 | 1 => drop(script.splice(part, [])),
        2 => {
            let again = script[part].to_vec();
            script.splice(at..at, again);
        }
        3 | 4 => script.insert(at, byte(rng)),
        5 | 6 if at < script.len() => script[at] = byte(rng),
        7 if at < script.len() => script[at] ^= 1 << rng.below(8),
        8 | 9 => drop(script.splice(at..at, words(rng))),
        10 if rng.once_in(4) => drop(script.splice(at..at, long(rng))),
        _ => {
            let end = part.start + word_length(&script[part.start..]);
            script.splice(part.start..end, word(rng).bytes());
        }
    }
}

/// How far a word reaches from the start.
fn word_length(text: &[u8]) -> usize {
    let in_word = |byte: &&u8| byte.is_ascii_alphanumeric();
    text.iter().take_while(in_word).count()
}

/// A change of the whole script: cut at an end or at both, or with other ends of lines or of words.
fn change_all(rng: &mut Rng, script: &mut Vec<u8>) {
    let (at, part) = (place(rng, script), span(rng, script));
    match rng.below(8) {
        0 => script.truncate(at),
        1 => drop(script.drain(..at)),
        2 => *script = script[part].to_vec(),
        3 => script.truncate(script.trim_ascii_end().len()),
        4 => {
            let lines: Vec<&[u8]> = script.split(|&byte| byte == b'\n').collect();
            *script = lines.join(&b"\r\n"[..]);
        }
        5 if rng.once_in(3) => replace(script, b'\n', b'\r'),
        6 if rng.once_in(3) => replace(script, b' ', 0),
        _ => {}
    }
}

fn replace(script: &mut [u8], old: u8, new: u8) {
    for byte in script.iter_mut().filter(|byte| **byte == old) {
        *byte = new;
    }
}

#[test]
fn changed_scripts_print_the_same() {
    let mut counts = BTreeMap::new();
    for seed in seeds(10_000, 150) {
        let mut rng = Rng::new(seed);
        let calls = rng.pick(&[5, 20, 100]);
        let made = script(&mut rng, calls, &Folder::new());
        for case in 0..8 {
            let mut changed = made.text.clone();
            change_all(&mut rng, &mut changed);
            for _ in 0..rng.pick(&[0, 1, 3, 10, 40]) {
                change(&mut rng, &mut changed);
            }
            replace(&mut changed, b'/', b'_');
            let printed = agree(&changed, &made.files, &format!("seed {seed} case {case}"));
            tally(&mut counts, &printed);
        }
    }
    println!("{counts:?}");
    assert!(all_kinds(&counts), "{counts:?}");
}

#[test]
fn every_cut_of_a_script_prints_the_same() {
    let made = script(&mut Rng::new(20_000), 10, &Folder::new());
    for length in 0..=made.text.len() {
        let cut = &made.text[..length];
        agree(cut, &made.files, &format!("cut at {length}"));
    }
}

#[test]
fn random_words_print_the_same() {
    let mut counts = BTreeMap::new();
    for seed in seeds(30_000, 400) {
        let mut rng = Rng::new(seed);
        let start: &[u8] = rng.pick(&[b"", b"found 2 2 1 0\n", b"found 16 2 2 0\n"]);
        let lines: Vec<Vec<u8>> = (0..rng.below(300)).map(|_| words(&mut rng)).collect();
        let script = [start, &lines.join(&b'\n')].concat();
        let one = ("trace0".into(), vec![1, 1, 1]);
        tally(
            &mut counts,
            &agree(&script, &[one], &format!("seed {seed}")),
        );
    }
    println!("{counts:?}");
    assert!(all_kinds(&counts), "{counts:?}");
}

#[test]
fn random_bytes_print_the_same() {
    for seed in seeds(40_000, 400) {
        let mut rng = Rng::new(seed);
        let length = rng.pick(&[1, 10, 100, 1_000, 10_000]);
        let mut bytes: Vec<u8> = match rng.below(3) {
            0 => (0..length).map(|_| rng.word() as u8).collect(),
            1 => (0..length).map(|_| byte(&mut rng)).collect(),
            _ => (0..length).map(|_| rng.pick(&SPECIAL)).collect(),
        };
        replace(&mut bytes, b'/', b'_');
        agree(&bytes, &[], &format!("seed {seed}"));
    }
}
