//! Scripts at the edges of the language, with what they print written out.

use std::fs;

use trials::by_hand::{image, longest, surveyed};
use trials::paper::e1_short;
use trials::random::{thinned, Rng};

use crate::language::{lines, Command, Line};
use crate::pipes::root;
use crate::player::{expected, LONGEST_SCRIPT};
use crate::support::{replay, File, Folder};

/// What the program prints, which must also be what is expected of it by the second engine.
fn printed(script: &[u8]) -> String {
    printed_beside(&[], script)
}

/// The same in a folder with these files.
fn printed_beside(files: &[File], script: &[u8]) -> String {
    let printed = replay(script, &Folder::holding(files));
    assert_eq!(printed, expected(script, &Folder::holding(files)));
    printed
}

#[test]
fn lines_that_are_no_command_are_named_and_passed_over() {
    let script = "found 2 2 1\nfound 2 2 1 0 0\nbegin g 1\nlookup -1 1\n# nothing\nfound 2 2 1 0\nlookup 1 18446744073709551616\nverdict";
    let expected = "line 1: not understood\nline 2: not understood\nline 3: not understood\nline 4: not understood\nfound: node 1\nline 7: not understood\nverdict: consistent\n";
    assert_eq!(printed(script.as_bytes()), expected);
}

#[test]
fn a_script_without_words_prints_nothing() {
    let scripts: [&[u8]; 7] = [
        b"",
        b"\n",
        b"\n\n\n",
        b" \t\r",
        b"#",
        b"# verdict\n  #verdict\r\n\t# sound",
        b"#\0\n#\xff\n",
    ];
    for script in scripts {
        assert_eq!(printed(script), "", "{}", script.escape_ascii());
    }
    assert_eq!(printed(&b"# a comment\n".repeat(50_000)), "");
}

#[test]
fn blanks_and_comments_end_words_and_nothing_else_does() {
    let blanks: &[u8] = b"\tfound\t2\r2 \r 1  0#0\r\nverdict#\nsound\r\n  verdict\r \nver#dict\n";
    let expected = "found: node 1\nverdict: consistent\nsound: the state is sound\nverdict: consistent\nline 5: not understood\n";
    assert_eq!(printed(blanks), expected);
    for other in [0, 1, 11, 12, 27, 127, 133, 160, 255] {
        for script in [[b"sound", &[other][..]], [&[other], b"sound"]] {
            assert_eq!(printed(&script.concat()), "line 1: not understood\n");
        }
    }
}

#[test]
fn numbers_are_held_whole_or_not_understood() {
    let unsound = "refused 2: the state is not sound\n";
    let none = "line 1: not understood\n";
    let zeros = "0".repeat(1_000);
    for (number, answer) in [
        ("0", unsound),
        ("18446744073709551615", unsound),
        (&format!("{zeros}18446744073709551615"), unsound),
        (&zeros, unsound),
        ("18446744073709551616", none),
        ("184467440737095516150", none),
        ("340282366920938463463374607431768211457", none),
        (&"9".repeat(1_000), none),
        (&format!("1{zeros}"), none),
        ("a", none),
        ("1a", none),
        ("0x1", none),
        ("+1", none),
        ("-1", none),
        ("1,000", none),
    ] {
        let script = format!("table {number}");
        assert_eq!(printed(script.as_bytes()), answer, "{script}");
    }
    for (id, answer) in [
        ("0", unsound),
        ("fFfFfFfF", unsound),
        (&format!("{zeros}ffffffff"), unsound),
        ("100000000", none),
        ("1ffffffff", none),
        ("10000000000000000", none),
        ("g", none),
        ("0xf", none),
        ("-f", none),
    ] {
        let script = format!("begin {id} 1");
        assert_eq!(printed(script.as_bytes()), answer, "{script}");
    }
}

#[test]
fn tables_and_soundness_before_founding_and_while_a_node_joins() {
    let script = b"table 1\ntable 0\nsound\nfound 16 3 2 fa0\ntable 1\nbegin b0 1\ntable 2\ndeliver 2 1\ntable 2\nsound\ntable 0\ntable 3\ntable 9223372036854775808\n";
    let expected = "\
refused 2: the state is not sound
refused 2: the state is not sound
refused 2: the state is not sound
found: node 1
table 1: id fa0, settled, requests 0, notices 0
  level 0 digit 0: 1
  level 1 digit a: 1
  level 2 digit f: 1
begin: node 2
table 2: id 0b0, copying, requests 1, notices 0
  level 0 digit 0: 2
  level 1 digit b: 2
  level 2 digit 0: 2
deliver: copied
table 2: id 0b0, waiting, requests 2, notices 0
  level 0 digit 0: 2 1
  level 1 digit a: 1
  level 1 digit b: 2
  level 2 digit 0: 2
sound: the state is sound
refused 9: a node number is 0 or above the number of nodes
refused 9: a node number is 0 or above the number of nodes
refused 9: a node number is 0 or above the number of nodes
";
    assert_eq!(printed(script), expected);
}

/// Of the panels of a network in which node 4 waits for node 3, which has a notice open; then node 3 has it answered and settles.
const PANELS: &str = "\
refused 2: the state is not sound
found: node 1
node 1: id 000, settled, requests 0, notices 0
begin: node 2
node 1: id 000, settled, requests 0, notices 0
node 2: id 100, copying, requests 1, notices 0
deliver: copied
deliver: attached at level 2, settled
begin: node 3
deliver: copied
deliver: attached at level 1
begin: node 4
deliver: copied
node 1: id 000, settled, requests 0, notices 0
node 2: id 100, settled, requests 2, notices 0
node 3: id 010, notifying, requests 2, notices 0
node 4: id 110, waiting, requests 2, notices 0
line 14: not understood
line 15: not understood
line 16: not understood
line 17: not understood
line 18: not understood
refused 14: the receiver of a wait request is not settled
deliver: notified, settled
node 1: id 000, settled, requests 0, notices 0
node 2: id 100, settled, requests 2, notices 0
node 3: id 010, settled, requests 2, notices 1
node 4: id 110, waiting, requests 2, notices 0
table 3: id 010, settled, requests 2, notices 1
  level 0 digit 0: 3
  level 1 digit 0: 1
  level 1 digit 1: 3
  level 2 digit 0: 3
refused 15: a node is not settled
load: the file cannot be read
node 1: id 000, settled, requests 0, notices 0
node 2: id 100, settled, requests 2, notices 0
node 3: id 010, settled, requests 2, notices 1
node 4: id 110, waiting, requests 2, notices 0
";

#[test]
fn panels_before_founding_and_while_nodes_join() {
    let script = b"panel\nfound 2 3 1 0\npanel\nbegin 100 1\npanel\ndeliver 2 1\ndeliver 2 1\nbegin 10 1\ndeliver 3 1\ndeliver 3 1\nbegin 110 1\ndeliver 4 1\n\tpanel # four\npanel 1\npanels\npanel x\npanel panel\nPanel\ndeliver 4 3\ndeliver 3 2\npanel\ntable 3\nsave a\nload a\npanel";
    assert_eq!(printed(script), PANELS);
}

/// Node 4 is withdrawn from one gateway and begins by another; then it is withdrawn while it copies, and node 3 while it waits. At the end node 3
/// notifies, and settles.
const WITHDRAWALS: &str = "\
refused 2: the state is not sound
found: node 1
refused 20: the node is settled or notifying
begin: node 2
deliver: copied
deliver: attached at level 2, settled
begin: node 3
deliver: copied
begin: node 4
withdraw: node 4
begin: node 4
refused 9: a node number is 0 or above the number of nodes
refused 9: a node number is 0 or above the number of nodes
refused 9: a node number is 0 or above the number of nodes
refused 19: the node is not the highest-numbered one
refused 19: the node is not the highest-numbered one
line 17: not understood
line 18: not understood
line 19: not understood
line 20: not understood
line 21: not understood
line 22: not understood
withdraw: node 4
withdraw: node 3
node 1: id 000, settled, requests 0, notices 0
node 2: id 100, settled, requests 2, notices 0
refused 20: the node is settled or notifying
begin: node 3
node 1: id 000, settled, requests 0, notices 0
node 2: id 100, settled, requests 2, notices 0
node 3: id 010, copying, requests 1, notices 0
deliver: copied
deliver: attached at level 1
refused 20: the node is settled or notifying
refused 19: the node is not the highest-numbered one
deliver: notified, settled
refused 20: the node is settled or notifying
sound: the state is sound
";

#[test]
fn withdrawals_before_founding_and_while_nodes_join() {
    let script = b"\
withdraw 1\nfound 2 3 1 0\nwithdraw 1\nbegin 100 1\ndeliver 2 1\ndeliver 2 1\nbegin 10 1\n\
deliver 3 1\nbegin 110 2\n\twithdraw 4 # by the wrong gateway\nbegin 110 1\nwithdraw 0\nwithdraw 5\n\
withdraw 18446744073709551615\nwithdraw 1\nwithdraw 3\nwithdraw\nwithdraw 4 4\nwithdraw 4a\n\
withdraw -4\nwithdraw 18446744073709551616\nWithdraw 4\nwithdraw 004\nwithdraw 3\npanel\n\
withdraw 2\nbegin 10 1\npanel\ndeliver 3 1\ndeliver 3 1\nwithdraw 3\nwithdraw 2\ndeliver 3 2\n\
withdraw 3\nsound";
    assert_eq!(printed(script), WITHDRAWALS);
}

#[test]
fn surveys_before_founding_and_while_a_node_joins() {
    let script = b"survey\nfound 2 2 1 0\nsurvey\nbegin 1 1\nsurvey\ndeliver 2 1\nsurvey\nsurvey 1\ndeliver 2 1\nsurvey";
    let expected = "\
refused 2: the state is not sound
found: node 1
survey: 0 pairs
  hops 1    0
  hops 2    0
  lost      0
begin: node 2
survey: 2 pairs
  hops 1    0
  hops 2    0
  lost      2 ##################################################
deliver: copied
survey: 2 pairs
  hops 1    1 #########################
  hops 2    0
  lost      1 #########################
line 8: not understood
deliver: attached at level 0, settled
survey: 2 pairs
  hops 1    2 ##################################################
  hops 2    0
  lost      0
";
    assert_eq!(printed(script), expected);
}

/// Node 1 has 2 and 3 for the digit that 2, 3 and 4 end with. Numbers that no node has mean nothing, and a number may stand twice.
const FAILURES: &str = "\
refused 2: the state is not sound
refused 2: the state is not sound
found: node 1
refused 21: the start or the destination has failed
lookup: arrived at 1 in 0 hops
refused 9: a node number is 0 or above the number of nodes
survey: 0 pairs
  hops 1    0
  hops 2    0
  lost      0
begin: node 2
deliver: copied
deliver: attached at level 0, settled
begin: node 3
deliver: copied
deliver: attached at level 0
deliver: notified, settled
begin: node 4
deliver: copied
deliver: copied
deliver: attached at level 1
deliver: notified, settled
lookup: arrived at 3 in 2 hops
lookup: arrived at 3 in 1 hop
lookup: arrived at 3 in 1 hop
lookup: arrived at 3 in 1 hop
lookup: arrived at 3 in 2 hops
lookup: arrived at 4 in 2 hops
lookup: arrived at 4 in 2 hops
lookup: lost at 1 in 0 hops
lookup: arrived at 1 in 1 hop
refused 21: the start or the destination has failed
refused 21: the start or the destination has failed
refused 21: the start or the destination has failed
survey: 12 pairs
  hops 1   10 ##########################################
  hops 2    2 #########
  lost      0
survey: 6 pairs
  hops 1    5 ##########################################
  hops 2    1 #########
  lost      0
survey: 2 pairs
  hops 1    1 #########################
  hops 2    0
  lost      1 #########################
survey: 0 pairs
  hops 1    0
  hops 2    0
  lost      0
survey: 12 pairs
  hops 1   10 ##########################################
  hops 2    2 #########
  lost      0
";

#[test]
fn lookups_and_surveys_around_failed_nodes() {
    let script = b"\
lookup 1 1 without 1\nsurvey without 1\nfound 4 2 2 0\nlookup 1 1 without 1\nlookup 1 1 without 2\n\
lookup 1 2 without 1\nsurvey without 1\nbegin 1 1\ndeliver 2 1\ndeliver 2 1\nbegin 11 1\n\
deliver 3 1\ndeliver 3 1\ndeliver 3 2\nbegin 21 1\ndeliver 4 1\ndeliver 4 2\ndeliver 4 2\n\
deliver 4 3\nlookup 1 3\nlookup 1 3 without 2\nlookup 1 3 without 64 002 5 2 0 65 18446744073709551615\n\
\tlookup\t1 3\rwithout 2#3\nlookup 1 3 without 4 64\nlookup 1 4\nlookup 1 4 without 2\n\
lookup 1 4 without 3 2\nlookup 4 1 without 3 2\nlookup 1 4 without 1\nlookup 1 4 without 4\n\
lookup 4 4 without 3 4\nsurvey\nsurvey without 2 2\nsurvey without 3 2\nsurvey without 1 2 3 4\n\
survey without 0 5 64 65";
    assert_eq!(printed(script), FAILURES);
}

/// `without` has at least one number behind it, and stands behind a lookup's two numbers or behind a survey alone.
const NOT_UNDERSTOOD: [&str; 31] = [
    "lookup 1 1 without",
    "lookup 1 1 without # 1",
    "lookup 1 1 without x",
    "lookup 1 1 without 1 x",
    "lookup 1 1 without -1",
    "lookup 1 1 without +1",
    "lookup 1 1 without 18446744073709551616",
    "lookup 1 1 without 1 18446744073709551616",
    "lookup 1 1 without without",
    "lookup 1 1 without 1 without 2",
    "lookup 1 1 without1",
    "lookup 1 1 Without 1",
    "lookup 1 1 with 1",
    "lookup 1 1 1",
    "lookup 1 without 1",
    "lookup 1 without 1 1",
    "lookup without 1",
    "lookup without 1 1 1",
    "survey without",
    "survey without #1",
    "survey without 1a",
    "survey without 1,2",
    "survey 1 without 1",
    "survey with 1",
    "survey 1",
    "without 1",
    "verdict without 1",
    "sound without 1",
    "panel without 1",
    "table 1 without 1",
    "deliver 1 1 without 1",
];

#[test]
fn other_words_behind_a_lookup_or_a_survey_are_not_understood() {
    for line in NOT_UNDERSTOOD {
        let printed = printed(line.as_bytes());
        assert_eq!(printed, "line 1: not understood\n", "{line}");
    }
    let zeros = "0".repeat(1_000);
    for line in [
        format!("survey without{}", " 1".repeat(10_000)),
        format!("survey without {zeros}1"),
        format!("lookup 1 1 without {zeros}"),
    ] {
        let printed = printed(line.as_bytes());
        assert_eq!(printed, "refused 2: the state is not sound\n");
    }
}

/// Of the files of `traces_of_files`: before founding, in a network of one node and of two, and with a third that joins.
const TRACES: &str = "\
refused 2: the state is not sound
refused 2: the state is not sound
trace: the file cannot be read
found: node 1
trace: 0 paths accepted
trace: 1 path accepted
refused 9 at path 1, place 2: a node number is 0 or above the number of nodes
refused 22: the trace is empty, a path's count is not 1 to 9, or the length does not fit
trace: the file cannot be read
begin: node 2
refused 23 at path 1, step 1: the step goes to no node of the lookup's entry, or past the destination
deliver: copied
deliver: attached at level 0, settled
trace: 1 path accepted
trace: 2 paths accepted
refused 23 at path 2, step 2: the step goes to no node of the lookup's entry, or past the destination
refused 9 at path 2, place 1: a node number is 0 or above the number of nodes
refused 22: the trace is empty, a path's count is not 1 to 9, or the length does not fit
refused 22: the trace is empty, a path's count is not 1 to 9, or the length does not fit
begin: node 3
trace: 2 paths accepted
trace: 0 paths accepted
line 24: not understood
line 25: not understood
line 26: not understood
line 27: not understood
trace: 0 paths accepted
sound: the state is sound
";

#[test]
fn traces_of_files() {
    let file = |(name, bytes): (&str, &[u8])| (name.to_string(), bytes.to_vec());
    let files = [
        ("none", &[0][..]),
        ("one", &[1, 1, 1]),
        ("step", &[1, 2, 1, 2]),
        ("both", &[2, 2, 1, 2, 2, 2, 1]),
        ("past", &[2, 2, 1, 2, 3, 2, 1, 1]),
        ("other", &[2, 2, 1, 1, 2, 3, 1]),
        ("empty", &[]),
        ("cut", &[2, 2, 1, 2, 3, 2, 1]),
    ];
    let script = b"\
trace none\ntrace cut\ntrace nothing\nfound 2 2 1 0\ntrace none\ntrace one\ntrace step\ntrace empty\n\
trace nothing\nbegin 1 1\ntrace step\ndeliver 2 1\ndeliver 2 1\n\ttrace step # one path\ntrace both\n\
trace past\ntrace other\ntrace cut\ntrace .\nbegin 10 1\ntrace both\ntrace none\n\n\
trace\ntrace none none\nTrace none\ntraces none\ntrace\tnone\r\nsound";
    assert_eq!(printed_beside(&files.map(file), script), TRACES);
}

/// What is printed of a trace, in a network of 64 nodes that know only themselves.
fn traced(trace: &[u8]) -> String {
    let alone = surveyed().into_iter().find(|case| case.name == "64 alone");
    let image = alone.expect("it is there").image;
    let files = [("image".into(), image), ("trace".into(), trace.to_vec())];
    let printed = printed_beside(&files, b"load image\ntrace trace");
    let (_, line) = printed.split_once('\n').expect("two answers");
    line.to_string()
}

#[test]
fn traces_of_255_paths_and_overlong_files() {
    let most = [&[255][..], &[1, 64].repeat(255)].concat();
    assert_eq!(traced(&most), "trace: 255 paths accepted\n");
    let last = [&most[..510], &[65]].concat();
    let refused = traced(&last);
    assert!(refused.starts_with("refused 9 at path 255, place 1: "));
    let nine = [&most[..509], &[9, 64, 64, 64, 64, 64, 64, 64, 64, 63]].concat();
    let refused = traced(&nine);
    assert!(refused.starts_with("refused 23 at path 255, step 1: "));
    let counts = "refused 22: the trace is empty, a path's count is not 1 to 9, or the length does not fit\n";
    for length in [512, 2_552, 65_535, 65_536, 65_537, 70_000, 1_000_000] {
        let mut long = most.clone();
        long.resize(length, 1);
        assert_eq!(traced(&long), counts, "{length}");
        assert_eq!(traced(&vec![0; length]), counts, "{length}");
    }
}

/// Before founding, while a node joins, of a whole network, of short E1, and of three nodes with counts that know only themselves.
const FILLINGS: &str = "\
refused 2: the state is not sound
found: node 1
fill: 0 additions
begin: node 2
refused 15: a node is not settled
deliver: copied
refused 15: a node is not settled
deliver: attached at level 0, settled
fill: 0 additions
load: 36 bytes
verdict: node 1 level 0 digit 1 falls short
fill: 1 addition
  node 1 level 0 digit 1 gains 2
verdict: consistent
fill: 0 additions
lookup: arrived at 2 in 1 hop
save: 40 bytes
load: 52 bytes
fill: 8 additions
  node 1 level 0 digit a gains 2
  node 1 level 0 digit a gains 3
  node 2 level 0 digit 0 gains 1
  node 2 level 0 digit a gains 3
  node 2 level 1 digit f gains 3
  node 3 level 0 digit 0 gains 1
  node 3 level 0 digit a gains 2
  node 3 level 1 digit 1 gains 2
node 1: id 00, settled, requests 3, notices 62
node 2: id 1a, settled, requests 0, notices 0
node 3: id fa, settled, requests 1, notices 2
table 3: id fa, settled, requests 1, notices 2
  level 0 digit 0: 1
  level 0 digit a: 3 2
  level 1 digit 1: 2
  level 1 digit f: 3
line 22: not understood
line 23: not understood
line 24: not understood
line 25: not understood
fill: 0 additions
";

#[test]
fn fillings_before_founding_and_of_files() {
    let counts = [0, 3, 3, 62, 0, 0, 1, 2];
    let mut alone = image([16, 2, 2], &[0x00, 0x1a, 0xfa], &[]);
    alone[1] = 2;
    alone.extend(counts);
    let files = [("short".into(), e1_short()), ("alone".into(), alone)];
    let script = b"\
fill\nfound 2 2 1 0\nfill\nbegin 1 1\nfill\ndeliver 2 1\nfill\ndeliver 2 1\nfill\n\
load short\nverdict\n\tfill # one\nverdict\nfill\nlookup 1 2\nsave whole\nload alone\nfill\npanel\ntable 3\n\n\
fill 1\nfill short\nFill\nfills\n  fill\r";
    assert_eq!(printed_beside(&files, script), FILLINGS);
}

/// The longest list: 84 additions of each of 64 nodes.
#[test]
fn a_filling_of_5376_additions() {
    let alone = thinned(&mut Rng::new(1), &longest(), 1);
    let files = [("alone".into(), alone)];
    let printed = printed_beside(&files, b"load alone\nfill\nverdict\nfill\nverdict");
    let lines: Vec<&str> = printed.lines().collect();
    assert_eq!(lines[1], "fill: 5376 additions");
    assert_eq!(lines[2], "  node 1 level 0 digit 0 gains 2");
    assert_eq!(lines[5377], "  node 64 level 7 digit 2 gains 63");
    let rest = [
        "verdict: consistent",
        "fill: 0 additions",
        "verdict: consistent",
    ];
    assert_eq!(lines[5378..], rest);
}

/// A section of docs/REPLAY.md: its first block is a script, and its second what is printed.
fn blocks(heading: &str) -> [String; 2] {
    let page = fs::read_to_string(root().join("docs/REPLAY.md")).expect("the page");
    let (_, section) = page.split_once(heading).expect("the section");
    let mut blocks = section
        .split("\n\n")
        .filter(|part| part.starts_with("    "))
        .map(|part| part.replace("\n    ", "\n")[4..].to_string() + "\n");
    [(); 2].map(|_| blocks.next().expect("two blocks"))
}

/// A section of the page whose script loads this sample.
fn section_is_printed(heading: &str, sample: &str) {
    let [script, lines] = blocks(heading);
    let image = fs::read(root().join("samples").join(sample)).expect(sample);
    let script = script.replace("samples/", "");
    let printed = printed_beside(&[(sample.into(), image)], script.as_bytes());
    assert_eq!(printed, lines);
}

#[test]
fn the_panel_of_the_page_is_printed() {
    let [script, lines] = blocks("## The panel\n");
    assert_eq!(printed(script.as_bytes()), lines);
}

#[test]
fn the_survey_of_the_page_is_printed() {
    section_is_printed("## A survey\n", "network64.image");
}

#[test]
fn the_refused_image_of_the_page_is_printed() {
    section_is_printed("## A refused image\n", "e1-damaged.image");
}

/// A join is saved under way and loaded again, once over the join of another network; then it goes on.
const RESUMED: &str = "\
found: node 1
begin: node 2
refused 15: a node is not settled
refused 15: a node is not settled
save: 58 bytes
found: node 1
begin: node 2
load: 58 bytes
node 1: id 00, settled, requests 0, notices 0
node 2: id 01, copying, requests 1, notices 0
deliver: copied
save: 62 bytes
deliver: attached at level 0, settled
save: 40 bytes
save: 46 bytes
load: 62 bytes
node 1: id 00, settled, requests 0, notices 0
node 2: id 01, waiting, requests 2, notices 0
load: 46 bytes
node 1: id 00, settled, requests 0, notices 0
node 2: id 01, settled, requests 2, notices 0
load: 40 bytes
node 1: id 00, settled, requests 0, notices 0
node 2: id 01, settled, requests 0, notices 0
line 23: not understood
line 24: not understood
line 25: not understood
line 26: not understood
line 27: not understood
";

#[test]
fn joins_under_way_are_saved_as_version_2() {
    let script = b"\
found 2 2 1 0\nbegin 1 1\nsave a\nsave a 1\nsave a 2\nfound 4 3 2 321\nbegin 120 1\nload a\npanel\n\
deliver 2 1\n\tsave b  002 # waiting\ndeliver 2 1\nsave c\nsave d 2\nload b\npanel\nload d\npanel\n\
load c\npanel\n\n\nsave c 2 2\nsave c x\nsave c -2\nsave c 18446744073709551616\nSave c 2";
    assert_eq!(printed(script), RESUMED);
}

#[test]
fn other_versions_are_refused_and_make_no_file() {
    for version in ["0", "3", "255", "257", "9223372036854775809"] {
        let script = format!("found 2 2 1 0\nsave a {version}\nload a");
        let printed = printed(script.as_bytes());
        let lines: Vec<&str> = printed.lines().collect();
        assert!(lines[1].starts_with("refused 4: "), "{version}");
        assert_eq!(lines[2], "load: the file cannot be read", "{version}");
    }
}

/// What is printed of an image that is loaded.
fn loaded(image: &[u8]) -> String {
    printed_beside(&[("image".into(), image.to_vec())], b"load image")
}

/// The chain, its gap and base 4 of the surveys worked out by hand: shares that are rounded up, and counts of one to four columns.
#[test]
fn bars_have_a_mark_for_each_started_fiftieth() {
    let of = |name: &str| {
        let case = surveyed().into_iter().find(|case| case.name == name);
        let file = ("image".into(), case.expect("there is one").image);
        let printed = printed_beside(&[file], b"load image\nsurvey");
        let (_, lines) = printed.split_once('\n').expect("two answers");
        lines.to_string()
    };
    assert_eq!(of("chain"), CHAIN);
    assert_eq!(of("gap"), GAP);
    assert_eq!(of("64 of base 4"), BASE_4);
}

const CHAIN: &str = "\
survey: 72 pairs
  hops 1    8 ######
  hops 2    7 #####
  hops 3    6 #####
  hops 4    5 ####
  hops 5    4 ###
  hops 6    3 ###
  hops 7    2 ##
  hops 8    1 #
  lost     36 #########################
";

const GAP: &str = "\
survey: 72 pairs
  hops 1    7 #####
  hops 2    5 ####
  hops 3    3 ###
  hops 4    1 #
  hops 5    0
  hops 6    0
  hops 7    0
  hops 8    0
  lost     56 #######################################
";

const BASE_4: &str = "\
survey: 4032 pairs
  hops 1  576 ########
  hops 2 1728 ######################
  hops 3 1728 ######################
  lost      0
";

#[test]
fn files_that_cannot_be_opened_are_named_and_folders_have_no_bytes() {
    let script = b"load .\nload nothing\nfound 2 2 1 0\nsave .\nsave nothing/x\nload nothing/x\nsave a\0b\nload a\0b\nsave a\nload a\nsave";
    let expected = "\
refused 3: the image has fewer than 5 bytes or does not begin with 4
load: the file cannot be read
found: node 1
save: the file cannot be written
save: the file cannot be written
load: the file cannot be read
save: the file cannot be written
load: the file cannot be read
save: 20 bytes
load: 20 bytes
line 11: not understood
";
    assert_eq!(printed(script), expected);
    let long = format!("found 2 2 1 0\nsave {0}\nload {0}\n", "n".repeat(5_000));
    let expected =
        "found: node 1\nsave: the file cannot be written\nload: the file cannot be read\n";
    assert_eq!(printed(long.as_bytes()), expected);
}

/// A name that is no UTF-8 text is that of no file.
#[test]
fn files_have_names_of_text() {
    let script = b"found 2 2 1 0\nsave \xff\nload \xff\ntrace \xff\nsave \xc3\xa9\nload \xc3\xa9";
    let expected = "\
found: node 1
save: the file cannot be written
load: the file cannot be read
trace: the file cannot be read
save: 20 bytes
load: 20 bytes
";
    assert_eq!(printed(script), expected);
}

#[test]
fn images_are_kept_as_they_come_and_overlong_ones_meet_6_if_nothing_earlier() {
    let whole = fs::read(root().join("samples/network64.image")).expect("network64");
    assert_eq!(loaded(&whole), format!("load: {} bytes\n", whole.len()));
    for length in [whole.len() + 1, 65_535, 65_536, 65_537, 70_000, 1_000_000] {
        let mut long = whole.clone();
        long.resize(length, 0);
        assert!(loaded(&long).starts_with("refused 6: "), "{length}");
        long[1] = 3;
        assert!(loaded(&long).starts_with("refused 4: "), "{length}");
    }
}

#[test]
fn a_script_of_1048575_bytes_is_played_and_a_longer_one_is_not() {
    let of_length = |length: usize| {
        let mut script = b"found 2 2 1 0\n# ".to_vec();
        script.resize(length - 8, b'#');
        script.extend(b"\nverdict");
        script
    };
    let played = "found: node 1\nverdict: consistent\n";
    assert_eq!(printed(&of_length(LONGEST_SCRIPT)), played);
    for length in [LONGEST_SCRIPT + 1, LONGEST_SCRIPT + 2, 3_000_000] {
        let refused = "the script is longer than 1048575 bytes\n";
        assert_eq!(printed(&of_length(length)), refused, "{length}");
    }
    let mut lines = vec![b'\n'; LONGEST_SCRIPT];
    lines[LONGEST_SCRIPT - 1] = b'x';
    assert_eq!(printed(&lines), "line 1048575: not understood\n");
}

/// Which command a line has.
fn name(line: &Line) -> &'static str {
    match line {
        Line::Empty => "",
        Line::NotUnderstood => "not understood",
        Line::Command(command) => match command {
            Command::Found { .. } => "found",
            Command::Begin { .. } => "begin",
            Command::Withdraw { .. } => "withdraw",
            Command::Deliver { .. } => "deliver",
            Command::Lookup { .. } => "lookup",
            Command::Verdict => "verdict",
            Command::Survey { .. } => "survey",
            Command::Sound => "sound",
            Command::Save { .. } => "save",
            Command::Load { .. } => "load",
            Command::Trace { .. } => "trace",
            Command::Fill => "fill",
            Command::Table { .. } => "table",
            Command::Panel => "panel",
        },
    }
}

#[test]
fn the_script_of_the_docs_has_every_command_and_prints_what_stands_beside_it() {
    let script = fs::read(root().join("crates/replay/stdin")).expect("stdin");
    let answers = fs::read_to_string(root().join("crates/replay/stdout")).expect("stdout");
    let data = fs::read_dir(root().join("crates/replay/data")).expect("data");
    let files: Vec<File> = data
        .map(|entry| entry.expect("it has a name"))
        .map(|entry| {
            let name = entry.file_name().into_string().expect("in UTF-8");
            (name, fs::read(entry.path()).expect("it can be read"))
        })
        .collect();
    assert_eq!(printed_beside(&files, &script), answers);
    let mut names: Vec<&str> = lines(&script).map(|(_, line)| name(&line)).collect();
    names.sort();
    names.dedup();
    let all = [
        "",
        "begin",
        "deliver",
        "fill",
        "found",
        "load",
        "lookup",
        "not understood",
        "panel",
        "save",
        "sound",
        "survey",
        "table",
        "trace",
        "verdict",
        "withdraw",
    ];
    assert_eq!(names, all);
    for byte in b"\t\r#" {
        assert!(script.contains(byte), "{byte}");
    }
}
