//! The survey: cases worked out by hand, the steps of a join, any state beside the lookups one by one, and what becomes of the nine counts.

use trials::archive::Archive;
use trials::by_hand::{surveyed, surveyed_without};
use trials::engine::{Engine, Second};
use trials::fenced::{FencedArchive, Place};
use trials::lent::Lent;
use trials::paper::E1;
use trials::random::{damage, failed_set, seeds, some_state, Rng};
use trials::script::Call;
use trials::second::memory::COUNT;
use trials::second::LOST;
use trials::surveys::by_lookups;

use crate::support::Both;

#[test]
fn surveys_count_what_was_worked_out_by_hand() {
    for case in surveyed().into_iter().chain(surveyed_without()) {
        let (name, failed) = (case.name, case.failed);
        let counts = Both::read_in(&case.image).survey(failed);
        assert_eq!(counts, case.counts, "{name} without {failed:#x}");
    }
}

/// Nodes 1 and 2 differ in digit 2 and know each other; node 3, which differs from both in digit 1, joins by node 1.
#[test]
fn a_join_is_surveyed_at_each_step() {
    let mut both = Both::founded([2, 3, 1], 0x000);
    both.begin(0x100, 1);
    both.settle();
    // Pairs one hop apart, two hops apart, and lost.
    let figures = |both: &mut Both| {
        let counts = both.survey(0);
        [counts[0], counts[1], counts[LOST]]
    };
    assert_eq!(figures(&mut both), [2, 0, 0]);
    both.begin(0x010, 1);
    assert_eq!(figures(&mut both), [2, 0, 4], "3 knows nobody");
    both.deliver(3, 1);
    assert_eq!(figures(&mut both), [3, 1, 2], "3 knows 1, which knows 2");
    both.deliver(3, 1);
    assert_eq!(figures(&mut both), [4, 1, 1], "1 knows 3");
    both.deliver(3, 2);
    assert_eq!(figures(&mut both), [5, 1, 0], "2 knows 3");
    assert!(both.network().all_in_system());
}

/// In any state, sound or not, with joins in flight or not, and after each of some damages.
#[test]
fn surveys_agree_in_any_state() {
    let (mut joining, mut losing, mut unsound) = (0, 0, 0);
    for seed in seeds(0, 400) {
        let mut rng = Rng::new(seed);
        let mut both = Both::after_some_run(&mut rng);
        let counts = both.survey(0);
        let nodes = both.network().count();
        both.survey(failed_set(&mut rng, nodes));
        joining += usize::from(!both.network().all_in_system());
        losing += usize::from(counts[LOST] != 0);
        let sound = both.memory().clone();
        for _ in 0..5 {
            both.obey(damage(&mut rng, &sound));
            let failed = failed_set(&mut rng, nodes);
            unsound += usize::from(both.call(Call::Survey { failed }) == 2);
        }
    }
    assert!(
        joining > 100 && losing > 100 && unsound > 500,
        "{joining} joining, {losing} losing, {unsound} unsound"
    );
}

/// The proved engine's survey beside its own lookups.
#[test]
fn surveys_count_what_lookups_answer() {
    let mut joining = 0;
    for seed in seeds(1_000, 60) {
        let mut rng = Rng::new(seed);
        let mut memory = some_state(&mut rng);
        let nodes = memory.state[COUNT] as usize;
        for failed in [0, failed_set(&mut rng, nodes)] {
            let answer = memory.call(&Archive, &Call::Survey { failed });
            assert_eq!(answer, 0, "seed {seed}");
            let counts = *memory.used_counts();
            let by_lookups = by_lookups(&Archive, &mut memory, failed);
            assert_eq!(counts, by_lookups, "seed {seed} without {failed:#x}");
        }
        joining += usize::from(memory.call(&Archive, &Call::Verdict) == 15);
    }
    assert!(joining > 20, "{joining} joining");
}

/// Sets of failed nodes, and how many pairs of E1 have none in them, each one hop apart.
const FAILED: [(u64, u64); 6] = [(0, 2), (1, 0), (2, 0), (3, 0), (!3, 2), (u64::MAX, 0)];

/// How much of E1 is lent, what stands in an unused word of its state, and the refusal.
const LENT: [(usize, usize, u64, u64); 7] = [
    (520, 32_768, 0, 0),
    (521, 32_769, 0, 0),
    (520, 32_768, 1, 2),
    (519, 32_768, 0, 1),
    (520, 32_767, 0, 1),
    (519, 32_767, 1, 1),
    (0, 0, 1, 1),
];

#[test]
fn all_nine_counts_are_written_or_none_is() {
    let [before, after] = [Place::Before, Place::After].map(FencedArchive);
    let engines: [&dyn Engine; 4] = [&Archive, &before, &after, &Second];
    let Lent {
        mut state,
        mut tables,
        ..
    } = Lent::noise();
    assert_eq!(Second.read(&mut state, &mut tables, &E1), 0);
    for (words, bytes, unused, refusal) in LENT {
        state[7] = unused;
        for engine in engines {
            for (failed, pairs) in FAILED {
                for noise in [0, 1, u64::MAX] {
                    let mut counts = [noise; 9];
                    let (state, tables) = (&mut state[..words], &mut tables[..bytes]);
                    let answer = engine.survey(state, tables, failed, &mut counts);
                    let taken = [pairs, 0, 0, 0, 0, 0, 0, 0, 0];
                    let expected = if refusal == 0 { taken } else { [noise; 9] };
                    let found = (answer, counts);
                    assert_eq!(found, (refusal, expected), "{}, {failed:#x}", engine.name());
                }
            }
        }
    }
}
