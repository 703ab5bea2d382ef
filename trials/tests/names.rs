//! A refusal has one name and a length one number: in the header, in the proved code and in the second engine.

use std::fs;

use trials::second::memory::{MOST_NODES, STATE_WORDS, TABLE_BYTES};
use trials::second::{Refusal, LONGEST_IMAGE, LONGEST_PATH, LONGEST_READ, LOST, MOST_ADDED_BYTES};

/// What a count byte holds.
const MOST_PATHS: usize = u8::MAX as usize;

/// `ShortMemory` as `SHORT_MEMORY`.
fn upper(name: &str) -> String {
    let mut out = String::new();
    for c in name.chars() {
        if c.is_uppercase() && !out.is_empty() {
            out.push('_');
        }
        out.push(c.to_ascii_uppercase());
    }
    out
}

fn read(path: &str) -> String {
    let path = format!("{}/../{path}", env!("CARGO_MANIFEST_DIR"));
    fs::read_to_string(&path).unwrap_or_else(|error| panic!("{path}: {error}"))
}

/// The name and number of a line such as `#define OVERLAY_FULL 11 /* .. */`, or `Full = 11,`.
fn named(line: &str, before: &str, between: &str) -> Option<(String, u64)> {
    let (name, rest) = line.trim().strip_prefix(before)?.split_once(between)?;
    let digits: String = rest.chars().take_while(char::is_ascii_digit).collect();
    Some((name.to_string(), digits.parse().ok()?))
}

fn in_second_engine() -> Vec<(String, u64)> {
    let name = |refusal: &Refusal| (upper(&format!("{refusal:?}")), *refusal as u64);
    Refusal::ALL.iter().map(name).collect()
}

/// What the header defines in a section.
fn in_header(section: &str) -> Vec<(String, u64)> {
    let header = read("include/overlay.h");
    let found = header
        .split("/* ---- ")
        .find(|part| part.starts_with(section));
    let lines = found.expect("the header has the section").lines();
    lines
        .filter_map(|line| named(line, "#define OVERLAY_", " "))
        .collect()
}

#[test]
fn the_header_names_the_refusals_as_the_second_engine_does() {
    assert_eq!(in_header("refusals"), in_second_engine());
}

#[test]
fn the_header_has_the_lengths_of_the_second_engine() {
    let lengths = [
        ("STATE_WORDS", STATE_WORDS),
        ("TABLE_BYTES", TABLE_BYTES),
        ("MOST_NODES", MOST_NODES),
        ("MOST_IMAGE_BYTES", LONGEST_READ),
        ("SURVEY_COUNTS", LOST + 1),
        ("MOST_WRITTEN_BYTES", LONGEST_IMAGE),
        ("MOST_ADDED_BYTES", MOST_ADDED_BYTES),
        ("MOST_PATHS", MOST_PATHS),
        ("MOST_PLACES", LONGEST_PATH as usize),
        (
            "MOST_TRACE_BYTES",
            1 + MOST_PATHS * (1 + LONGEST_PATH as usize),
        ),
    ];
    let lengths = lengths.map(|(name, length)| (name.to_string(), length as u64));
    assert_eq!(in_header("lengths"), lengths);
}

#[test]
fn the_proved_code_names_the_refusals_as_the_second_engine_does() {
    let code = read("crates/answers/src/error.rt");
    let names: Vec<_> = code
        .lines()
        .filter_map(|line| named(line, "", " = "))
        .map(|(name, number)| (upper(&name), number))
        .collect();
    assert_eq!(names, in_second_engine());
}
