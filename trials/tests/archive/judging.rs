//! The judge of a state: sound states, damaged ones and noise.

use trials::archive::Archive;
use trials::engine::{Engine, Second};
use trials::lent::Lent;
use trials::random::{damage, seeds, some_state, Rng};
use trials::records::one_bit;
use trials::second::memory::{STATE_WORDS, TABLE_BYTES};

use crate::support::{lent_lengths, Both};

fn judged(ours: &mut Lent, words: usize, bytes: usize, case: &str) -> u64 {
    let answer = Archive.sound(&mut ours.state[..words], &mut ours.tables[..bytes]);
    let other = Second.sound(&mut ours.state[..words], &mut ours.tables[..bytes]);
    assert_eq!(answer, other, "{case}");
    answer
}

#[test]
fn the_judges_agree_on_damaged_states() {
    let (mut sound, mut unsound) = (0, 0);
    for seed in seeds(0, 1_500) {
        let mut rng = Rng::new(seed);
        let mut memory = some_state(&mut rng);
        let whole = judged(
            &mut memory,
            STATE_WORDS,
            TABLE_BYTES,
            &format!("seed {seed}"),
        );
        assert_eq!(whole, 0, "seed {seed}");
        for turn in 0..8 {
            let line = damage(&mut rng, &memory);
            let kept = memory.clone();
            memory.obey(&Second, &line);
            let case = format!("seed {seed}, damage {turn}: {line:?}");
            match judged(&mut memory, STATE_WORDS, TABLE_BYTES, &case) {
                0 => sound += 1,
                _ => unsound += 1,
            }
            memory = kept;
        }
        let (words, bytes) = lent_lengths(&mut rng);
        judged(
            &mut memory,
            words,
            bytes,
            &format!("seed {seed}: {words} words, {bytes} bytes"),
        );
    }
    assert!(
        sound > 100 && unsound > 6_000,
        "{sound} sound, {unsound} not"
    );
}

/// The cases of `records::a_neighbor_that_differs_in_one_bit`, put into the tables.
#[test]
fn a_neighbor_that_differs_in_one_bit_in_the_tables() {
    for case in one_bit() {
        let mut memory = Both::read_in(&case.image(false)).memory().clone();
        memory.tables[case.slot()] = 2;
        let answer = judged(&mut memory, STATE_WORDS, TABLE_BYTES, &format!("{case:x?}"));
        assert_eq!(answer, if case.allowed() { 0 } else { 2 }, "{case:x?}");
    }
}

#[test]
fn the_judges_agree_on_noise() {
    for seed in seeds(0, 2_000) {
        let mut rng = Rng::new(seed);
        let mut memory = Lent::noise();
        for word in memory.state.iter_mut() {
            *word = if rng.once_in(2) {
                rng.word()
            } else {
                rng.between(0, 20)
            };
        }
        judged(
            &mut memory,
            STATE_WORDS,
            TABLE_BYTES,
            &format!("seed {seed}"),
        );
    }
}
