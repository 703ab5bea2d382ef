//! Verdict and writing: the memory for the image, joins in flight, and states that no run reaches.

use trials::by_hand::longest;
use trials::lent::ALL;
use trials::random::{damage, image, image_2, seeds, Rng};
use trials::script::{Call, Lend};
use trials::second::{Refusal, LONGEST_OF_VERSION_1};

use crate::support::Both;

#[test]
fn writing_needs_the_length_of_the_image_and_leaves_the_rest_alone() {
    for seed in seeds(0, 200) {
        let rng = &mut Rng::new(seed);
        for (version, image) in [(1, image(rng)), (2, image_2(rng))] {
            let length = image.len();
            let mut both = Both::read_in(&image);
            for out in [0, 1, length / 2, length - 1] {
                both.lend(Lend { out, ..ALL });
                let answer = both.call(Call::Write { version });
                assert_eq!(answer, 16, "seed {seed}, {out} bytes");
            }
            for out in [length, length + 1, ALL.out] {
                both.lend(Lend { out, ..ALL });
                assert_eq!(both.image(version), image, "seed {seed}, {out} bytes");
            }
        }
    }
}

/// OVERLAY_MOST_WRITTEN_BYTES of the header, less what version 2 adds: one network needs them all. The longest of version 2 is in `resumed`.
#[test]
fn the_longest_image_of_version_1_is_written() {
    let image = longest();
    assert_eq!(image.len(), LONGEST_OF_VERSION_1);
    let mut both = Both::read_in(&image);
    let lend = |out| Lend { out, ..ALL };
    both.lend(lend(LONGEST_OF_VERSION_1 - 1));
    assert_eq!(both.call(Call::WRITE_1), 16);
    both.lend(lend(LONGEST_OF_VERSION_1));
    assert_eq!(both.image(1), image);
}

/// In any state, sound and settled or not, then after each of some damages. Version 2 is written in every sound state.
#[test]
fn verdict_and_writing_agree_in_any_state() {
    let mut met = [0; Refusal::NUMBERS];
    for seed in seeds(1_000, 400) {
        let mut rng = Rng::new(seed);
        let mut both = Both::after_some_run(&mut rng);
        let sound = both.memory().clone();
        for _ in 0..5 {
            let mut refusal = |call| both.call(call) & 0xff;
            let verdict = refusal(Call::Verdict);
            let written = [1, 2, 3].map(|version| refusal(Call::Write { version }));
            let expected = match verdict {
                2 => [2, 2, 2],
                in_flight => [in_flight, 0, 4],
            };
            assert_eq!(written, expected, "seed {seed}");
            met[verdict as usize] += 1;
            both.obey(damage(&mut rng, &sound));
        }
    }
    let [taken, unsound, in_flight] = [0, 2, 15].map(|refusal| met[refusal]);
    assert!(taken > 50 && unsound > 500 && in_flight > 100, "{met:?}");
}
