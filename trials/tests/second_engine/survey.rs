//! The survey: cases worked out by hand, and random states beside the lookups one by one.

use trials::by_hand::{surveyed, surveyed_without};
use trials::engine::Second;
use trials::random::{failed_set, seeds, some_state, Rng};
use trials::second::{SurveyAnswer, LOST};
use trials::surveys::{adds_up, by_lookups};

use crate::support::Trial;

#[test]
fn surveys_count_what_was_worked_out_by_hand() {
    for case in surveyed().into_iter().chain(surveyed_without()) {
        let answer = Trial::read_in(&case.image).survey(case.failed);
        let (name, failed, counts) = (case.name, case.failed, case.counts);
        let expected = SurveyAnswer { refusal: 0, counts };
        assert_eq!(answer, expected, "{name} without {failed:#x}");
    }
}

/// In many of these states nodes are joining, and in many pairs are lost.
#[test]
fn surveys_of_random_states_count_what_lookups_answer() {
    let (mut joining, mut losing, mut farthest) = (0, 0, 0);
    for seed in seeds(0, 200) {
        let mut rng = Rng::new(seed);
        let memory = some_state(&mut rng);
        let mut trial = Trial { memory };
        let count = trial.network().count();
        let mut counted = |failed| {
            let SurveyAnswer { refusal, counts } = trial.survey(failed);
            assert_eq!(refusal, 0, "seed {seed}");
            adds_up(trial.memory.used_state(), failed, &counts).unwrap();
            let by_lookups = by_lookups(&Second, &mut trial.memory, failed);
            assert_eq!(counts, by_lookups, "seed {seed} without {failed:#x}");
            counts
        };
        counted(failed_set(&mut rng, count));
        let counts = counted(0);
        joining += usize::from(!trial.network().all_in_system());
        losing += usize::from(counts[LOST] != 0);
        let hops = (1..=LOST).filter(|hops| counts[hops - 1] != 0);
        farthest = hops.max().unwrap_or(0).max(farthest);
    }
    assert!(
        joining > 80 && losing > 80 && farthest > 2,
        "{joining} joining, {losing} losing, {farthest} hops"
    );
}
