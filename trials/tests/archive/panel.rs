//! Each node's two counts: joins worked out by hand, damaged counts, and what images leave of them.

use trials::archive::Archive;
use trials::engine::Second;
use trials::panel::{around, by_hand, hold, panels, requests_word, Bounds};
use trials::panel::{ALL_STATUSES, SOUND, UNSOUND};
use trials::random::{seeds, Rng};
use trials::script::{Call, Line};
use trials::second::memory::COUNT;
use trials::second::network::Panel;

use crate::support::Both;

#[test]
fn joins_count_what_was_worked_out_by_hand() {
    for join in by_hand() {
        let mut both = Both::new();
        for (number, step) in (1..).zip(join.steps) {
            both.obey(step.line.clone());
            let right = step.stands_in(both.memory().used_state());
            assert!(right, "{}, line {number}", join.name);
        }
    }
}

#[test]
fn counts_are_judged_as_worked_out_by_hand() {
    let mut both = Both::new();
    both.play(&ALL_STATUSES.parse().unwrap());
    let whole = both.memory().clone();
    for (list, refusal) in [(&SOUND[..], 0), (&UNSOUND, 2)] {
        for &words in list {
            for &(place, value) in words {
                both.obey(Line::Word { place, value });
            }
            assert_eq!(both.call(Call::Sound), refusal, "{words:?}");
            for &(place, _) in words {
                let value = whole.state[place];
                both.obey(Line::Word { place, value });
            }
        }
    }
}

#[test]
fn damaged_counts_are_judged_by_the_sentences() {
    hold(&Archive, &Second);
}

/// A settled network whose nodes have any counts that they may have: its image is the same with all of them, and reading it sets them to zero.
#[test]
fn an_image_of_version_1_has_no_counts() {
    let mut written = 0;
    for seed in seeds(0, 60) {
        let mut rng = Rng::new(seed);
        let mut both = Both::founded([4, 3, 2], 0);
        both.grow(&mut rng, 12, 3);
        let image = both.image(1);
        for node in 1..=both.memory().state[COUNT] as usize {
            let bounds = Bounds::of(both.memory().used_state(), node);
            let ranges = [bounds.requests, bounds.notices];
            for (place, range) in (requests_word(node)..).zip(ranges) {
                let inside = around(&range)
                    .into_iter()
                    .filter(|count| range.contains(count));
                let value = rng.pick(&inside.collect::<Vec<_>>());
                both.obey(Line::Word { place, value });
            }
        }
        assert_eq!(both.image(1), image, "seed {seed}");
        written += usize::from(panels(both.memory().used_state()) != [Panel::default(); 64]);
        assert_eq!(both.read(&image), 0);
        assert_eq!(panels(both.memory().used_state()), [Panel::default(); 64]);
        assert_eq!(both.call(Call::Sound), 0);
        assert_eq!(both.image(1), image, "seed {seed}");
    }
    assert!(written > 50, "{written}");
}
