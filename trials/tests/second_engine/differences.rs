//! The comparison itself: it must see whatever an engine does otherwise.

use trials::compare::compare;
use trials::engine::{Engine, Second};
use trials::script::Script;
use trials::second::memory::COUNT;
use trials::second::LOST;

use crate::spoiled::SpoilWriting;
use crate::spoiled::{
    AfterFilling, AfterLookup, AfterReading, AfterTrace, AfterWriting, SpoilFilling,
};
use crate::spoiled::{SpoilLookup, SpoilReading, SpoilSurvey, SpoilTrace, SpoilWithdrawal};
use crate::spoiled::{Spoiled, UNSPOILED};

const SCRIPT: &str = "found 2 2 1 0\nwrite\nlookup 1 1\nbegin 1 1\nbegin 1 1\nverdict\nsound\n\
                      read 04\nread 0401020201010000000002000100000101010001\nverdict\n\
                      begin 1 1\nsurvey\nlend 519 32768 0\nsurvey\nlend 520 32768 0\n\
                      read 0401020201010000000002000101000101000001\nread 040102020101000000000000\n\
                      lend 536 32896 0\nwithdraw 3\nwithdraw 1\nwithdraw 2\nwithdraw 1\n\
                      read 04010202010200000000010000000600010000010100010201010001020000010200010202010002\n\
                      lookup 1 2 without 2\nlookup 1 3 without 1\nlookup 2 1 without 3 64\n\
                      survey without 2\nsurvey without 64\n\
                      trace 00\ntrace 01020102\ntrace\ntrace 0103010203\ntrace 020101020202\n\
                      lend 536 32896 100\n\
                      read 04020202010200000000010000000400010000010101000102000102020100020102010001000000000000000000000000000000000200000100\n\
                      write 2\nwrite\nwrite 3\n\
                      read 04020202010200000000010000000400010000010101000102000102020100020100010001000000000000000000000000000000000200000100\n\
                      fill\nread 040102020102000000000100000005000100000101010001020000010200010202010002\nlend 536 32896 3\nfill\n\
                      lend 536 32896 100\nfill\nfill\nlend 519 32896 100\nfill\n";

/// The line of the first difference between two engines.
fn first_difference(a: &dyn Engine, b: &dyn Engine) -> Option<usize> {
    let script: Script = SCRIPT.parse().unwrap();
    compare(a, b, &script).err().map(|found| found.line + 1)
}

#[test]
fn equal_engines_do_not_differ() {
    assert_eq!(first_difference(&UNSPOILED, &Second), None);
}

#[test]
fn every_difference_is_seen() {
    let read = |read| Spoiled { read, ..UNSPOILED };
    let begin = |begin| Spoiled { begin, ..UNSPOILED };
    let verdict = |verdict| Spoiled {
        verdict,
        ..UNSPOILED
    };
    let lookup = |lookup| Spoiled {
        lookup,
        ..UNSPOILED
    };
    let write = |write| Spoiled { write, ..UNSPOILED };
    let spoiled = [
        (begin(|_, _, answer| answer + 0x100), 4),
        (
            begin(|_, _, answer| if answer == 8 { 9 } else { answer }),
            5,
        ),
        (
            begin(|_, tables, answer| {
                tables[513] = 2;
                answer
            }),
            4,
        ),
        (
            begin(|state, _, answer| {
                state[520] ^= 1;
                answer
            }),
            4,
        ),
        (
            begin(|_, tables, answer| {
                tables[32_768] ^= 1;
                answer
            }),
            4,
        ),
        (read(|_, _, answer| if answer == 3 { 6 } else { answer }), 8),
        (
            read(|state, _, answer| {
                state[9] ^= u64::from(answer == 0);
                answer
            }),
            9,
        ),
        (
            read(|_, tables, answer| {
                tables[32_767] ^= u8::from(answer != 0);
                answer
            }),
            8,
        ),
        (verdict(|answer| if answer == 15 { 0 } else { answer }), 6),
        (verdict(|answer| answer ^ 0x100), 6),
        (
            verdict(|answer| if answer == 0x100 { 1 << 16 } else { answer }),
            10,
        ),
        (lookup(|after| after.state[519] ^= 1), 3),
        (lookup(|after| after.tables[32_767] ^= 1), 3),
        (write(|out| *out.last_mut().unwrap() ^= 1), 2),
        (write(|out| out[0] = 5), 2),
    ];
    for (number, (engine, line)) in spoiled.iter().enumerate() {
        assert_eq!(first_difference(engine, &Second), Some(*line), "{number}");
        assert_eq!(first_difference(&Second, engine), Some(*line), "{number}");
    }
}

#[test]
fn two_engines_with_the_same_fault_are_seen_where_guards_are_touched() {
    let fault = || Spoiled {
        begin: |state, _, answer| {
            state[520] ^= 1;
            answer
        },
        ..UNSPOILED
    };
    assert_eq!(first_difference(&fault(), &fault()), Some(4));
    let refused_with_more = || Spoiled {
        begin: |_, _, answer| if answer == 8 { 0x108 } else { answer },
        ..UNSPOILED
    };
    assert_eq!(
        first_difference(&refused_with_more(), &refused_with_more()),
        Some(5)
    );
}

#[test]
fn a_report_has_the_seed_and_the_script() {
    let script: Script = SCRIPT.parse().unwrap();
    let spoiled = Spoiled {
        begin: |_, _, _| 3,
        ..UNSPOILED
    };
    let difference = compare(&spoiled, &Second, &script).unwrap_err();
    let report = difference.report(77, &script);
    assert_eq!(
        report,
        "seed 77\nfound 2 2 1 0\nwrite\nlookup 1 1\nbegin 1 1\n\
         line 4: spoiled and second answer 0x3 and 0x200"
    );
}

/// Line 24 is refused 21, line 25 is refused 9, line 26 arrives in one hop.
const WRONG_LOOKUPS: [(SpoilLookup, usize); 10] = [
    (|after| instead(after, 21, 0x115), 24),
    (
        |after| after.state[519] ^= u64::from(after.answer == 21),
        24,
    ),
    (
        |after| after.tables[32_767] ^= u8::from(after.answer == 21),
        24,
    ),
    // A failed destination is let pass.
    (|after| instead(after, 21, ARRIVED + (1 << 24)), 24),
    (|after| instead(after, 9, ARRIVED + (2 << 24)), 25),
    // More hops than digits that differ.
    (|after| instead(after, ARRIVED, ARRIVED + (2 << 16)), 26),
    (|after| instead(after, ARRIVED, ARRIVED - 0x100), 26),
    (|after| instead(after, ARRIVED, ARRIVED + (1 << 24)), 26),
    (|after| instead(after, ARRIVED, 64 << 24), 26),
    (|after| instead(after, ARRIVED, ARRIVED | 1 << 32), 26),
];

/// What line 26 is answered.
const ARRIVED: u64 = 0x0101_0100;

fn instead(after: &mut AfterLookup, answer: u64, wrong: u64) {
    if after.answer == answer {
        after.answer = wrong;
    }
}

#[test]
fn every_difference_of_a_lookup_is_seen() {
    let numbers: [(SpoilLookup, usize); 6] = [
        (|after| instead(after, 21, 9), 24),
        (|after| instead(after, 21, 1 << 24), 24),
        // 21 is judged before 9.
        (|after| instead(after, 9, 21), 25),
        // A number that no node has is taken for a node.
        (|after| instead(after, ARRIVED, 9), 26),
        (|after| instead(after, ARRIVED, 21), 26),
        // One hop more for a node passed over.
        (|after| instead(after, ARRIVED, ARRIVED + (1 << 16)), 26),
    ];
    for (number, (lookup, line)) in WRONG_LOOKUPS.into_iter().chain(numbers).enumerate() {
        let engine = Spoiled {
            lookup,
            ..UNSPOILED
        };
        assert_eq!(first_difference(&engine, &Second), Some(line), "{number}");
        assert_eq!(first_difference(&Second, &engine), Some(line), "{number}");
    }
}

#[test]
fn two_engines_with_the_same_fault_in_a_lookup_are_seen() {
    for (number, (lookup, line)) in WRONG_LOOKUPS.into_iter().enumerate() {
        let fault = || Spoiled {
            lookup,
            ..UNSPOILED
        };
        let found = first_difference(&fault(), &fault());
        assert_eq!(found, Some(line), "{number}");
    }
}

/// Line 12 surveys two nodes that do not know each other, line 14 is refused 1; in line 27 one of two has failed, in line 28 none.
#[test]
fn every_difference_of_a_survey_is_seen() {
    let spoiled: [(SpoilSurvey, usize); 13] = [
        (|after| after.answer = 2, 12),
        (|after| after.answer |= 0x100, 12),
        (|after| *after.counts = after.before, 12),
        (|after| after.counts[7] = after.before[7], 12),
        (|after| after.counts.swap(1, LOST), 12),
        (|after| after.state[518] ^= 1, 12),
        (|after| after.tables[32_767] ^= 1, 12),
        (|after| after.answer *= 2, 14),
        (|after| after.counts[LOST] ^= after.answer, 14),
        (|after| after.counts[0] += after.failed & 2, 27),
        (|after| after.counts[LOST] += after.failed & 2, 27),
        (
            |after| after.answer += 21 * u64::from(after.failed == 2),
            27,
        ),
        (
            |after| after.counts[0] *= u64::from(after.failed >> 63 == 0),
            28,
        ),
    ];
    for (number, (survey, line)) in spoiled.into_iter().enumerate() {
        let engine = Spoiled {
            survey,
            ..UNSPOILED
        };
        assert_eq!(first_difference(&engine, &Second), Some(line), "{number}");
        assert_eq!(first_difference(&Second, &engine), Some(line), "{number}");
    }
}

#[test]
fn two_engines_with_the_same_fault_in_a_survey_are_seen() {
    let faults: [(SpoilSurvey, usize); 8] = [
        (|after| *after.counts = after.before, 12),
        (|after| after.counts[LOST] -= 1, 12),
        (|after| after.counts.swap(2, LOST), 12),
        (|after| after.state[518] ^= 1, 12),
        (|after| after.counts[LOST] ^= after.answer, 14),
        (|after| after.counts[0] += after.failed & 2, 27),
        (|after| after.counts[LOST] += after.failed & 2, 27),
        (
            |after| after.counts[0] *= u64::from(after.failed >> 63 == 0),
            28,
        ),
    ];
    for (number, (survey, line)) in faults.into_iter().enumerate() {
        let fault = || Spoiled {
            survey,
            ..UNSPOILED
        };
        let found = first_difference(&fault(), &fault());
        assert_eq!(found, Some(line), "{number}");
    }
}

/// Line 19 is refused 9, line 20 is refused 19, line 21 withdraws the second of two nodes, line 22 is refused 20.
const WRONG_WITHDRAWALS: [(SpoilWithdrawal, usize); 13] = [
    (|after| after.answer |= 0x100, 19),
    (|after| after.state[519] ^= after.answer, 19),
    (
        |after| after.tables[32_767] ^= u8::from(after.answer == 19),
        20,
    ),
    (
        |after| after.answer |= 0x200 * u64::from(after.answer == 0),
        21,
    ),
    (
        |after| after.state[COUNT] += u64::from(after.answer == 0),
        21,
    ),
    (|after| after.state[22] |= u64::from(after.answer == 0), 21),
    (
        |after| after.tables[1_023] |= u8::from(after.answer == 0),
        21,
    ),
    (|after| after.state[8] ^= u64::from(after.answer == 0), 21),
    (|after| after.state[24] ^= u64::from(after.answer == 0), 21),
    (|after| after.tables[511] ^= u8::from(after.answer == 0), 21),
    (
        |after| after.tables[1_024] ^= u8::from(after.answer == 0),
        21,
    ),
    (|after| after.state[520] ^= u64::from(after.answer == 0), 21),
    (|after| after.state[9] ^= u64::from(after.answer == 20), 22),
];

#[test]
fn every_difference_of_a_withdrawal_is_seen() {
    let numbers: [(SpoilWithdrawal, usize); 4] = [
        (
            |after| after.answer += 10 * u64::from(after.answer == 9),
            19,
        ),
        (|after| after.answer += u64::from(after.answer == 19), 20),
        (
            |after| after.answer += 20 * u64::from(after.answer == 0),
            21,
        ),
        (|after| after.answer -= u64::from(after.answer == 20), 22),
    ];
    for (withdraw, line) in WRONG_WITHDRAWALS.into_iter().chain(numbers) {
        let engine = Spoiled {
            withdraw,
            ..UNSPOILED
        };
        assert_eq!(first_difference(&engine, &Second), Some(line));
        assert_eq!(first_difference(&Second, &engine), Some(line));
    }
}

#[test]
fn two_engines_with_the_same_fault_in_a_withdrawal_are_seen() {
    for (number, (withdraw, line)) in WRONG_WITHDRAWALS.into_iter().enumerate() {
        let fault = || Spoiled {
            withdraw,
            ..UNSPOILED
        };
        let found = first_difference(&fault(), &fault());
        assert_eq!(found, Some(line), "{number}");
    }
}

/// Lines 29 and 30 are accepted, line 31 is refused 22, line 32 is refused 9 at place 3 of path 1, line 33 is refused 23 at step 1 of path 2.
const WRONG_TRACES: [(SpoilTrace, usize); 20] = [
    (|after| after.state[519] ^= 1, 29),
    (|after| after.state[520] ^= 1, 29),
    (|after| after.tables[32_767] ^= 1, 29),
    // Without paths it is refused.
    (|after| traced(after, 0, 22), 29),
    (|after| after.answer |= 0x100, 29),
    (
        |after| after.answer |= 0x1_0117 * u64::from(after.trace.len() == 4),
        30,
    ),
    (|after| traced(after, 22, 0), 31),
    (|after| traced(after, 22, 6), 31),
    (|after| traced(after, 22, 0x1_0116), 31),
    (|after| after.state[9] ^= u64::from(after.answer == 22), 31),
    (|after| traced(after, 0x3_0109, 9), 32),
    (|after| traced(after, 0x3_0109, 0x2_0109), 32),
    (|after| traced(after, 0x3_0109, 0x3_0009), 32),
    (|after| traced(after, 0x3_0109, 0x2_0117), 32),
    (|after| traced(after, 0x1_0217, 0), 33),
    (|after| traced(after, 0x1_0217, 23), 33),
    (|after| traced(after, 0x1_0217, 0x2_0217), 33),
    (|after| traced(after, 0x1_0217, 0x1_0117), 33),
    (|after| traced(after, 0x1_0217, 0x0101_0217), 33),
    (
        |after| after.tables[1_023] ^= u8::from(after.answer == 0x1_0217),
        33,
    ),
];

fn traced(after: &mut AfterTrace, answer: u64, wrong: u64) {
    if after.answer == answer {
        after.answer = wrong;
    }
}

#[test]
fn every_difference_of_a_trace_is_seen() {
    for (number, (trace, line)) in WRONG_TRACES.into_iter().enumerate() {
        let fault = || Spoiled { trace, ..UNSPOILED };
        assert_eq!(first_difference(&fault(), &Second), Some(line), "{number}");
        assert_eq!(first_difference(&Second, &fault()), Some(line), "{number}");
        assert_eq!(first_difference(&fault(), &fault()), Some(line), "{number}");
    }
}

/// Line 35 reads an image of version 2 in which node 2 copies, line 36 writes it, line 37 names version 1 and is refused 15, line 38 is refused 4, and line 39
/// is refused 24.
const WRONG_READINGS: [(SpoilReading, usize); 7] = [
    (|after| read_2(after, |after| after.state[17] = 0), 35),
    (|after| read_2(after, |after| after.state[22] = 0), 35),
    (|after| read_2(after, |after| after.state[519] = 1), 35),
    (|after| read_2(after, |after| after.tables[1_023] = 1), 35),
    (|after| read_2(after, |after| after.answer = 24), 35),
    (|after| after.answer *= u64::from(after.answer != 24), 39),
    (
        |after| after.answer |= u64::from(after.answer == 24) << 8,
        39,
    ),
];

fn read_2(after: &mut AfterReading, change: fn(&mut AfterReading)) {
    if after.answer == 0 && after.image[1] == 2 {
        change(after);
    }
}

const WRONG_WRITINGS: [(SpoilWriting, usize); 6] = [
    (|after| wrote_2(after, |after| after.out[1] = 1), 36),
    (|after| wrote_2(after, |after| after.out[56] = 0), 36),
    (|after| wrote_2(after, |after| after.out[58] ^= 1), 36),
    (|after| wrote_2(after, |after| after.answer += 0x100), 36),
    (|after| wrote_2(after, |after| after.answer = 15), 36),
    (|after| after.answer *= u64::from(after.answer != 4), 38),
];

fn wrote_2(after: &mut AfterWriting, change: fn(&mut AfterWriting)) {
    if after.answer == 58 << 8 && after.version == 2 {
        change(after);
    }
}

#[test]
fn every_difference_of_an_image_is_seen() {
    let readings = WRONG_READINGS.into_iter().map(|(restore, line)| {
        let engine = Spoiled {
            restore,
            ..UNSPOILED
        };
        (engine, line)
    });
    let writings = WRONG_WRITINGS.into_iter().map(|(save, line)| {
        let engine = Spoiled { save, ..UNSPOILED };
        (engine, line)
    });
    for (number, (engine, line)) in readings.chain(writings).enumerate() {
        assert_eq!(first_difference(&engine, &Second), Some(line), "{number}");
        assert_eq!(first_difference(&Second, &engine), Some(line), "{number}");
        assert_eq!(first_difference(&engine, &engine), Some(line), "{number}");
    }
}

/// Line 40 is refused 15, line 43 is refused 16, line 45 adds node 2 to the entry of node 1 at byte 4, line 46 adds nothing, and line 48 is refused 1.
const WRONG_FILLINGS: [(SpoilFilling, usize); 19] = [
    (|after| filled(after, 15, |after| after.answer |= 0x100), 40),
    (|after| filled(after, 15, |after| after.answer = 0), 40),
    (|after| filled(after, 15, |after| after.state[9] ^= 1), 40),
    (|after| filled(after, 15, |after| after.out[0] ^= 1), 40),
    (
        |after| filled(after, 15, |after| after.tables[511] ^= 1),
        40,
    ),
    (|after| filled(after, 16, |after| after.answer = 0), 43),
    (|after| filled(after, 16, |after| after.answer = 15), 43),
    (|after| filled(after, 16, |after| after.answer |= 0x100), 43),
    (|after| filled(after, 16, |after| after.out[0] ^= 1), 43),
    (|after| filled(after, 16, |after| after.tables[4] = 2), 43),
    (|after| filled(after, 0x100, |after| after.out[3] ^= 1), 45),
    (|after| filled(after, 0x100, |after| after.out[4] ^= 1), 45),
    (
        |after| filled(after, 0x100, |after| after.tables[4] = 0),
        45,
    ),
    (
        |after| filled(after, 0x100, |after| after.tables[5] = 1),
        45,
    ),
    (
        |after| filled(after, 0x100, |after| after.tables[32_768] ^= 1),
        45,
    ),
    (
        |after| filled(after, 0x100, |after| after.state[14] ^= 1),
        45,
    ),
    (
        |after| filled(after, 0x100, |after| after.state[520] ^= 1),
        45,
    ),
    (|after| filled(after, 0, |after| after.answer = 0x100), 46),
    (|after| filled(after, 1, |after| after.answer = 2), 48),
];

fn filled(after: &mut AfterFilling, answer: u64, change: fn(&mut AfterFilling)) {
    if after.answer == answer {
        change(after);
    }
}

#[test]
fn every_difference_of_a_filling_is_seen() {
    for (number, (fill, line)) in WRONG_FILLINGS.into_iter().enumerate() {
        let fault = || Spoiled { fill, ..UNSPOILED };
        assert_eq!(first_difference(&fault(), &Second), Some(line), "{number}");
        assert_eq!(first_difference(&Second, &fault()), Some(line), "{number}");
        assert_eq!(first_difference(&fault(), &fault()), Some(line), "{number}");
    }
}

/// What a reading answers instead of one answer.
type Instead = fn(&mut [u64], &mut [u8], u64) -> u64;

/// Line 8 is refused 3, line 16 is refused 10 at the second of two records, line 17 is refused 18 and has none.
const WRONG_PLACES: [(Instead, usize); 6] = [
    (
        |_, _, answer| if answer == 0x03 { 0x103 } else { answer },
        8,
    ),
    (
        |_, _, answer| if answer == 0x20a { 0x0a } else { answer },
        16,
    ),
    (
        |_, _, answer| if answer == 0x20a { 0x30a } else { answer },
        16,
    ),
    (
        |_, _, answer| if answer == 0x20a { 0x209 } else { answer },
        16,
    ),
    (|_, _, answer| answer | (answer & 0x200) << 32, 16),
    (
        |_, _, answer| if answer == 0x12 { 0x112 } else { answer },
        17,
    ),
];

#[test]
fn every_difference_of_a_place_is_seen() {
    let other: Instead = |_, _, answer| if answer == 0x20a { 0x10a } else { answer };
    for (read, line) in WRONG_PLACES.into_iter().chain([(other, 16)]) {
        let engine = Spoiled { read, ..UNSPOILED };
        assert_eq!(first_difference(&engine, &Second), Some(line));
        assert_eq!(first_difference(&Second, &engine), Some(line));
    }
}

#[test]
fn two_engines_with_the_same_place_that_cannot_be_are_seen() {
    for (read, line) in WRONG_PLACES {
        let fault = || Spoiled { read, ..UNSPOILED };
        assert_eq!(first_difference(&fault(), &fault()), Some(line));
    }
}
