//! The first true sentence wins, and a refused call changes nothing.

use trials::lent::Lent;
use trials::paper::{e1_short, E1};
use trials::second::{self, Answer};

use crate::support::Trial;

/// A network of 64 nodes, all in system.
fn full() -> Trial {
    let mut trial = Trial::founded([16, 2, 1], 0);
    for id in 1..64 {
        trial.begin(id, 1);
        trial.settle();
    }
    trial
}

/// Nodes 1 and 2 are in system, 3 and 4 have begun.
fn two_joins() -> Trial {
    let mut trial = Trial::founded([2, 3, 1], 0x000);
    trial.begin(0x001, 1);
    trial.settle();
    trial.begin(0x010, 1);
    trial.begin(0x110, 1);
    trial
}

fn damaged(place: usize, value: u8) -> Vec<u8> {
    let mut image = E1.to_vec();
    image[place] = value;
    image
}

#[test]
fn founding_judges_in_order() {
    let mut trial = Trial::new();
    let before = trial.memory.clone();
    for settings in [
        [1, 2, 1],
        [17, 2, 1],
        [2, 0, 1],
        [2, 9, 1],
        [2, 2, 0],
        [2, 2, 5],
    ] {
        assert_eq!(trial.found(settings, u32::MAX).refusal, 5);
    }
    assert_eq!(trial.found([2 + (1 << 32), 2, 1], 0).refusal, 5);
    assert_eq!(trial.found([2, 2, 1], 2).refusal, 7);
    assert_eq!(trial.memory, before);
}

/// All that comes before the records; those are in `records`.
#[test]
fn reading_judges_in_order() {
    let mut trial = Trial::new();
    let before = trial.memory.clone();
    for length in 0..E1.len() {
        let refusal = if length < 5 { 3 } else { 6 };
        assert_eq!(
            trial.read(&E1[..length]).refusal,
            refusal,
            "cut at {length}"
        );
    }
    let cases = [
        (damaged(0, 5), 3),
        (damaged(1, 0), 4),
        (damaged(1, 3), 4),
        // Without the two sections of version 2.
        (damaged(1, 2), 6),
        (damaged(2, 1), 5),
        (damaged(3, 9), 5),
        (damaged(4, 0), 5),
        (damaged(5, 0), 6),
        (damaged(5, 65), 6),
        (damaged(14, 5), 6),
        (damaged(15, 1), 6),
        (damaged(6, 2), 7),
        (damaged(13, 1), 7),
        (damaged(10, 0), 8),
    ];
    for (image, refusal) in cases {
        assert_eq!(trial.read(&image).refusal, refusal, "{image:x?}");
    }
    assert_eq!(trial.memory, before);
}

#[test]
fn an_overlong_image_is_refused_whatever_its_counts() {
    let mut image = E1.to_vec();
    image[14..16].copy_from_slice(&20_000_u16.to_le_bytes());
    image.resize(16 + 4 * 20_000, 1);
    assert_eq!(Trial::new().read(&image).refusal, 6);
    image[1] = 0;
    assert_eq!(Trial::new().read(&image).refusal, 4);
}

#[test]
fn a_sentence_is_judged_over_the_whole_image_first() {
    let mut repeated_then_bad = damaged(10, 0);
    repeated_then_bad[5] = 3;
    repeated_then_bad.splice(14..14, [2, 0, 0, 0]);
    assert_eq!(Trial::new().read(&repeated_then_bad).refusal, 7);
}

#[test]
fn beginning_judges_in_order() {
    let mut trial = full();
    let before = trial.memory.clone();
    assert_eq!(trial.begin(0x100, 0).refusal, 7);
    assert_eq!(trial.begin(5, 0).refusal, 8);
    for gateway in [0, 65, 1 << 63, (1 << 32) + 1] {
        assert_eq!(trial.begin(0xff, gateway).refusal, 9);
    }
    assert_eq!(trial.begin(0xff, 64).refusal, 11);
    assert_eq!(trial.memory, before);
    let mut trial = two_joins();
    assert_eq!(trial.begin(0x111, 3).refusal, 12);
    assert_eq!(trial.begin(0x111, 5).refusal, 9);
}

#[test]
fn withdrawing_judges_in_order() {
    let mut trial = two_joins();
    let before = trial.memory.clone();
    for node in [0, 5, 65, 4 + (1 << 8), 4 + (1 << 32), 1 << 63, u64::MAX] {
        assert_eq!(trial.withdraw(node).refusal, 9, "{node}");
    }
    for node in [1, 2, 3] {
        assert_eq!(trial.withdraw(node).refusal, 19, "{node}");
    }
    assert_eq!(trial.memory, before);
    assert_eq!(trial.withdraw(4).refusal, 0);
    assert_eq!(trial.withdraw(4).refusal, 9);
    assert_eq!(trial.withdraw(3).refusal, 0);
    let before = trial.memory.clone();
    assert_eq!(trial.withdraw(1).refusal, 19);
    assert_eq!(trial.withdraw(2).refusal, 20);
    assert_eq!(trial.memory, before);
    let mut trial = full();
    assert_eq!(trial.withdraw(63).refusal, 19);
    assert_eq!(trial.withdraw(64).refusal, 20);
    assert_eq!(trial.withdraw(65).refusal, 9);
}

#[test]
fn delivering_judges_in_order() {
    let mut trial = two_joins();
    for (sender, receiver) in [(0, 1), (1, 0), (5, 1), (1, 5), (3 + (1 << 8), 1)] {
        assert_eq!(trial.deliver(sender, receiver).refusal, 9);
    }
    for (sender, receiver) in [(1, 1), (3, 3), (1, 3), (3, 2), (2, 1)] {
        assert_eq!(trial.deliver(sender, receiver).refusal, 13);
    }
    assert_eq!(trial.deliver(3, 1).kind, 1);
    let attached = trial.deliver(3, 1);
    assert_eq!(
        (attached.kind, attached.level, attached.settled),
        (3, 1, true)
    );
}

#[test]
fn a_held_wait_stays_outstanding() {
    let mut trial = Trial::founded([2, 3, 1], 0x000);
    trial.begin(0x100, 1);
    trial.settle();
    trial.begin(0x010, 1);
    trial.deliver(3, 1);
    let attached = trial.deliver(3, 1);
    assert_eq!(
        (attached.kind, attached.level, attached.settled),
        (3, 1, false)
    );

    trial.begin(0x110, 1);
    assert_eq!(trial.deliver(4, 1).kind, 1);
    let before = trial.memory.clone();
    assert_eq!(trial.deliver(4, 3).refusal, 14);
    assert_eq!(trial.memory, before);

    let notified = trial.deliver(3, 2);
    assert_eq!((notified.kind, notified.settled), (4, true));
    assert_eq!(trial.deliver(4, 3).kind, 3);
}

#[test]
fn lookup_survey_verdict_and_trace_judge_in_order() {
    let trial = two_joins();
    for (from, to) in [(0, 1), (1, 0), (5, 1), (1, 5), (1 << 63, 1)] {
        for failed in [0, 1, 1 << 4, u64::MAX] {
            assert_eq!(trial.lookup(from, to, failed).refusal, 9);
        }
    }
    for (from, to, failed) in [(1, 2, 1), (1, 2, 2), (1, 2, 3), (3, 3, 4), (3, 4, u64::MAX)] {
        assert_eq!(trial.lookup(from, to, failed).refusal, 21);
    }
    for failed in [0, 3, !(4 | 8)] {
        assert_eq!(trial.lookup(3, 4, failed).refusal, 0);
    }
    for failed in [0, 1, 0xf, u64::MAX] {
        assert_eq!(trial.survey(failed).refusal, 0);
    }
    assert_eq!(trial.verdict().refusal, 15);
    // Joins under way are no refusal.
    for (trace, answer) in [
        (&[0][..], (0, 0, 0)),
        (&[1, 2, 1, 2], (0, 0, 0)),
        (&[1, 2, 1, 5], (9, 1, 2)),
        (&[1, 2, 1, 1], (23, 1, 1)),
        (&[1, 2, 1], (22, 0, 0)),
    ] {
        let traced = trial.trace(trace);
        assert_eq!((traced.refusal, traced.path, traced.place), answer);
    }
}

#[test]
fn writing_judges_in_order() {
    let mut trial = two_joins();
    assert_eq!(trial.write(1).refusal, 15);
    assert_eq!(trial.write(2).refusal, 0);
    for version in [0, 3, 255, 256 + 1, (1 << 32) + 2, 1 << 63, u64::MAX] {
        assert_eq!(trial.write(version).refusal, 4, "{version}");
    }
    let mut trial = Trial::read_in(&E1);
    let Lent {
        state, tables, out, ..
    } = &mut trial.memory;
    for (version, length) in [(1, 40), (2, 46)] {
        let short = second::write(state, tables, version, &mut out[..length - 1]);
        assert_eq!(short.refusal, 16);
        let written = second::write(state, tables, version, &mut out[..length]);
        assert_eq!(written.length, length as u64);
    }
    assert_eq!(second::write(state, tables, 3, &mut []).refusal, 4);
}

#[test]
fn filling_judges_in_order() {
    let mut trial = two_joins();
    let before = trial.memory.clone();
    assert_eq!(trial.fill().refusal, 15);
    let Lent { state, tables, .. } = &mut trial.memory;
    assert_eq!(second::fill(state, tables, &mut []).refusal, 15);
    assert_eq!(trial.memory, before);
    let mut trial = Trial::read_in(&e1_short());
    let before = trial.memory.clone();
    let Lent {
        state, tables, out, ..
    } = &mut trial.memory;
    for length in 0..4 {
        let short = second::fill(state, tables, &mut out[..length]);
        assert_eq!((short.refusal, short.additions), (16, 0));
    }
    assert_eq!(trial.memory, before);
    assert_eq!(trial.fill().additions, 1);
    let Lent { state, tables, .. } = &mut trial.memory;
    let nothing = second::fill(state, tables, &mut []);
    assert_eq!((nothing.refusal, nothing.additions), (0, 0));
}

/// Of every version, and of others.
fn all_writings_are_refused(state: &[u64], tables: &[u8], refusal: u8) {
    for version in 0..4 {
        let written = second::write(state, tables, version, &mut [0; 65_536]);
        assert_eq!(written.refusal, refusal);
    }
}

/// Good ones and bad ones, whatever is wrong with them.
fn all_traces_are_refused(state: &[u64], tables: &[u8], answer: u64) {
    for trace in [&[][..], &[0], &[1, 1, 0], &[1, 2, 1, 1]] {
        assert_eq!(second::trace(state, tables, trace).pack(), answer);
    }
}

#[test]
fn memory_too_short_comes_first_and_unsound_next() {
    let Lent {
        mut state,
        mut tables,
        ..
    } = Lent::noise();
    for (words, bytes, refusal) in [
        (519, 32_768, 1),
        (520, 32_767, 1),
        (0, 0, 1),
        (520, 32_768, 2),
    ] {
        let (state, tables) = (&mut state[..words], &mut tables[..bytes]);
        assert_eq!(second::begin(state, tables, 0, 0).refusal, refusal);
        assert_eq!(second::withdraw(state, tables, 0).refusal, refusal);
        assert_eq!(second::deliver(state, tables, 0, 0).refusal, refusal);
        for failed in [0, 1, u64::MAX] {
            let looked_up = second::lookup(state, tables, 0, 0, failed);
            assert_eq!(looked_up.refusal, refusal);
            assert_eq!(second::survey(state, tables, failed).refusal, refusal);
        }
        all_traces_are_refused(state, tables, refusal.into());
        assert_eq!(second::verdict(state, tables).refusal, refusal);
        all_writings_are_refused(state, tables, refusal);
        for out in [&mut [][..], &mut [0; 21_504]] {
            assert_eq!(second::fill(state, tables, out).refusal, refusal);
        }
    }
    assert_eq!(
        second::found(&mut state[..519], &mut tables, 0, 0, 0, 0).refusal,
        1
    );
    assert_eq!(
        second::read(&mut state, &mut tables[..32_767], &[]).refusal,
        1
    );
    assert_eq!(
        second::read(&mut state[..520], &mut tables[..32_768], &E1).refusal,
        0
    );
}
