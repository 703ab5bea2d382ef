//! Networks that grow to 64 nodes with joins in flight, saved and read on the way.

use trials::panel::requests_word;
use trials::random::{failed_set, id, seeds, Rng};
use trials::script::{set_of, Call};
use trials::second::memory::COUNT;
use trials::second::{Settings, LOST};

use crate::support::Both;

const SETTINGS: [[u64; 3]; 6] = [
    [16, 8, 4],
    [16, 2, 1],
    [4, 4, 2],
    [2, 7, 3],
    [3, 6, 1],
    [10, 3, 4],
];

/// Saves the network and reads it here and elsewhere: each word and byte is as it was, but that every count is zero.
fn save_and_read(both: &mut Both) {
    let image = both.image(1);
    let mut state = *both.memory().used_state();
    let tables = both.memory().used_tables().to_vec();
    for node in 1..=state[COUNT] as usize {
        state[requests_word(node)..][..2].fill(0);
    }
    assert_eq!(both.read(&image), 0);
    let elsewhere = Both::read_in(&image);
    for memory in [both.memory(), elsewhere.memory()] {
        assert_eq!(*memory.used_state(), state);
        assert_eq!(memory.used_tables()[..], tables);
    }
}

fn look_up_each(both: &mut Both, rng: &mut Rng) {
    let count = both.network().count() as u64;
    for to in 1..=count {
        let from = rng.between(1, count);
        for failed in [0, failed_set(rng, count as usize)] {
            both.lookup(from, to, failed);
        }
    }
}

/// With one failed node fewer than an entry holds.
fn some_fail(both: &mut Both, rng: &mut Rng) -> u64 {
    let network = both.network();
    let some = (1..network.settings.depth()).map(|_| rng.between(1, network.count() as u64));
    both.survey(set_of(&some.collect::<Vec<_>>()))[LOST]
}

#[test]
fn networks_grow_to_64_nodes_saved_and_read_on_the_way() {
    for seed in seeds(0, 18) {
        let mut rng = Rng::new(seed);
        let settings = SETTINGS[seed as usize % SETTINGS.len()];
        let [base, digits, depth] = settings;
        let valid = Settings::new(base, digits, depth).expect("in range");
        let mut both = Both::founded(settings, id(&mut rng, valid));
        let in_flight = rng.pick(&[1, 4, 20]);
        for nodes in [rng.between(2, 20) as usize, 40, 64] {
            both.grow(&mut rng, nodes, in_flight);
            let consistent = both.call(Call::Verdict) == 0x100;
            let lost = [both.survey(0)[LOST], some_fail(&mut both, &mut rng)];
            assert!(!consistent || lost == [0, 0], "seed {seed}: {lost:?} lost");
            save_and_read(&mut both);
            look_up_each(&mut both, &mut rng);
        }
        assert_eq!(both.network().count(), 64);
        let id = id(&mut rng, valid);
        let full = both.begin(id, 1);
        assert!(matches!(full, 8 | 11), "seed {seed}: {full}");
        assert_eq!(both.deliver(2, 1), 13);
    }
}
