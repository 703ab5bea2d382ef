//! Scripts as text: what is printed is what is parsed.

use trials::random::{run, Rng};
use trials::script::{Call, Line, Script};

#[test]
fn printed_scripts_are_parsed_back() {
    for seed in 0..50 {
        let (script, _) = run(&mut Rng::new(seed), 100);
        assert_eq!(script.to_string().parse(), Ok(script), "seed {seed}");
    }
}

#[test]
fn every_line_has_its_text() {
    let text =
        "found 2 2 1 a0\nbegin ff 18446744073709551615\nwithdraw 18446744073709551615\ndeliver 2 1\nlookup 1 2\nverdict\nwrite\n\
                read 0401ff\nsound\nsurvey\nlend 520 32768 40\nword 12 ffffffffffffffff\nbyte 300 7\n\
                lookup 1 18446744073709551615 without 1 3 64\nsurvey without 2\ntrace 0102ff00\nwrite 2\nwrite 18446744073709551615\nfill\n";
    let script: Script = text.parse().unwrap();
    assert_eq!(script.lines.len(), 19);
    assert_eq!(script.to_string(), text);
}

/// An image or a trace of no bytes.
#[test]
fn nothing_behind_the_name_is_no_bytes() {
    let script: Script = "read\ntrace\n".parse().unwrap();
    let empty = [Call::Read { image: vec![] }, Call::Trace { trace: vec![] }];
    assert_eq!(script.lines, empty.map(Line::Call));
    assert_eq!(script.to_string().parse(), Ok(script));
}

/// A version that is not named is 1.
#[test]
fn a_writing_has_its_version() {
    let script: Script = "write\nwrite 1\nwrite 2\nwrite 0".parse().unwrap();
    let versions = [1, 1, 2, 0].map(|version| Line::Call(Call::Write { version }));
    assert_eq!(script.lines, versions);
    assert_eq!(script.to_string(), "write\nwrite\nwrite 2\nwrite 0\n");
}

/// In any order, twice, and with numbers that mean nothing.
#[test]
fn failed_nodes_are_a_set() {
    let parsed = |text: &str| text.parse::<Script>().unwrap().to_string();
    let text = "lookup 1 2 without 64 0 3 65 3 18446744073709551615";
    assert_eq!(parsed(text), "lookup 1 2 without 3 64\n");
    assert_eq!(parsed("survey without 0 65"), "survey\n");
    let all: Vec<String> = (1..=64).map(|node: u64| node.to_string()).collect();
    let text = format!("survey without {}\n", all.join(" "));
    assert_eq!(parsed(&text), text);
}

#[test]
fn other_lines_are_errors() {
    for text in [
        "find 1",
        "found 2 2 1",
        "read 0",
        "read 0g",
        "begin 1 -1",
        "begin 1 1 1",
        "withdraw",
        "withdraw 1 1",
        "withdraw -1",
        "withdraw a",
        "byte 3 100",
        "trace 0",
        "trace 0g",
        "trace 00 00",
        "traces 00",
        "write 1 2",
        "write x",
        "write -1",
        "write 18446744073709551616",
        "fill 1",
        "fills",
        "survey 1",
        "survey without",
        "survey with 1",
        "survey without without",
        "survey without 1 a",
        "survey without 18446744073709551616",
        "lookup 1 without 2",
        "lookup 1 2 3",
        "lookup 1 2 without",
        "lookup 1 2 without -1",
        "lookup 1 2 without 3 without 4",
    ] {
        assert!(text.parse::<Script>().is_err(), "{text}");
    }
}
