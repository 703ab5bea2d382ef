//! The judge of a state: clause by clause, and against the literal one on damaged states.

use trials::engine::Second;
use trials::lent::Lent;
use trials::panel::{ALL_STATUSES, SOUND, UNSOUND};
use trials::plain::plain_sound;
use trials::random::{built_state, damage, reached_state, seeds, Rng};
use trials::script::{Line, Script};
use trials::second::sound;

fn judged(memory: &Lent) -> bool {
    let (state, tables) = (memory.used_state(), memory.used_tables());
    let answer = sound(state, tables);
    assert_eq!(answer, plain_sound(state, tables));
    answer
}

/// Nodes 1 and 2 in system, 3 notifying with 2 pending and 1 notified, 4 waiting for 3, 5 copying.
fn all_statuses() -> Lent {
    let script: Script = ALL_STATUSES.parse().unwrap();
    let mut memory = Lent::noise();
    for line in &script.lines {
        assert_eq!(memory.obey(&Second, line) & 0xff, 0);
    }
    memory
}

/// Words that make it unsound.
#[rustfmt::skip]
const BAD_WORDS: [(usize, u64); 58] = [
    (0, 1), (0, 17), (0, 3 + (1 << 32)), (1, 0), (1, 9), (2, 0), (2, 5), // settings
    (3, 0), (3, 4), (3, 6), (3, 65), (3, 1 << 63), // count
    (4, 1), (7, 1), (48, 1), (519, 1), // unused words
    (8, 0x002), (8, 0x100), (8, 1 << 12), (8, 1 << 32), // ids
    (9, 4), (9, 1), (9, 3), (10, 1), (11, 1), (12, 2), (13, 2), // in the system
    (25, 0), (26, 3), (27, 1), (28, 0), (28, 1), (28, 4), (28, 10), (28, 18), (28, 34), // notifying
    (29, 2), (29, 4), (29, 8), (29, 32), (29, 1 << 63),
    (33, 1), (34, 1), (35, 0), (35, 4), (35, 5), (35, 6), (35, 1 << 63), (36, 1), (37, 1), // waiting
    (42, 1), (43, 0), (43, 3), (43, 5), (43, 6), (43, 1 << 63), (44, 1), (45, 1), // copying
];

/// Bytes that make it unsound.
#[rustfmt::skip]
const BAD_BYTES: [(usize, u8); 14] = [
    (0, 0), (0, 2), (1, 2), (4, 5), (2, 1), (8, 1), (60, 1), (192, 1), // node 1's table
    (512, 1), (1024 + 64, 4), (1536 + 4, 5), (2048 + 4, 0), (2560, 1), (32_767, 1),
];

#[test]
fn every_clause_is_judged() {
    let sound = all_statuses();
    assert!(judged(&sound));
    let mut memory = sound.clone();
    for (place, value) in BAD_WORDS {
        assert_ne!(memory.state[place], value);
        memory.state[place] = value;
        assert!(!judged(&memory), "word {place} {value:x}");
        memory.clone_from(&sound);
    }
    for (place, value) in BAD_BYTES {
        assert_ne!(memory.tables[place], value);
        memory.tables[place] = value;
        assert!(!judged(&memory), "byte {place} {value}");
        memory.clone_from(&sound);
    }
}

#[test]
fn counts_are_judged_as_worked_out_by_hand() {
    let whole = all_statuses();
    for (list, sound) in [(&SOUND[..], true), (&UNSOUND, false)] {
        for &words in list {
            let mut memory = whole.clone();
            for &(place, value) in words {
                memory.state[place] = value;
            }
            assert_eq!(judged(&memory), sound, "{words:?}");
        }
    }
}

#[test]
fn damaged_reached_states_are_judged_like_the_literal_clauses() {
    let mut still_sound = 0;
    for seed in seeds(0, 300) {
        let mut rng = Rng::new(seed);
        let memory = reached_state(&mut rng);
        assert!(judged(&memory), "seed {seed}");
        for _ in 0..40 {
            let mut damaged = memory.clone();
            let line: Line = damage(&mut rng, &memory);
            damaged.obey(&Second, &line);
            still_sound += usize::from(judged(&damaged));
        }
    }
    assert!(still_sound > 100, "damage should not always be fatal");
}

#[test]
fn built_states_are_sound() {
    for seed in seeds(0, 2_000) {
        let (state, tables) = built_state(&mut Rng::new(seed));
        assert!(
            sound(&state, &tables) && plain_sound(&state, &tables),
            "seed {seed}"
        );
    }
}
