//! The edges that document 01 lists, on both engines. Answers are packed: the refusal lowest, then a byte for each field.

use trials::paper::{e1_short, E1};
use trials::random::Rng;
use trials::script::{set_of, Call};
use trials::second::Settings;

use crate::support::{full_image, Both};

const CONSISTENT: u64 = 0x100;
const COPIED: u64 = 0x100;
const ATTACHED: u64 = 0x300;
const SETTLED: u64 = 1 << 24;

#[test]
fn joining_one_node_makes_e1() {
    let mut both = Both::founded([2, 2, 1], 0);
    assert_eq!(both.begin(1, 1), 2 << 8);
    assert_eq!(both.deliver(2, 1), COPIED);
    assert_eq!(both.deliver(2, 1), ATTACHED | SETTLED);
    assert_eq!(both.deliver(2, 1), 13);
    assert!(both.network().all_in_system());
    assert_eq!(both.image(1), E1);
}

/// P6 and P7.
#[test]
fn one_founded_node_and_e1_are_consistent() {
    let verdict = |mut both: Both| both.call(Call::Verdict);
    assert_eq!(verdict(Both::founded([2, 2, 1], 0)), CONSISTENT);
    assert_eq!(verdict(Both::founded([16, 8, 4], u32::MAX)), CONSISTENT);
    assert_eq!(verdict(Both::read_in(&E1)), CONSISTENT);
}

/// P8, P9 and P10.
#[test]
fn verdict_and_lookups_of_short_e1() {
    let mut both = Both::read_in(&e1_short());
    assert_eq!(both.call(Call::Verdict), 1 << 16 | 1 << 32);
    for failed in [0, !3] {
        assert_eq!(both.lookup(1, 2, failed), 1 << 24);
        assert_eq!(both.lookup(2, 1, failed), 0x100 | 1 << 16 | 1 << 24);
        assert_eq!(both.lookup(2, 2, failed), 0x100 | 2 << 24);
    }
}

/// No node, one, another, both, none of these alone and with both, and all numbers.
const FAILED: [u64; 7] = [0, 1, 2, 3, !3, 1 << 63 | 3, u64::MAX];

/// Whatever has failed: 9 goes before 21.
#[test]
fn a_number_that_no_node_has_is_refused_9_with_every_failed_set() {
    let full = full_image(&mut Rng::new(2));
    for (image, past) in [(E1.to_vec(), 3), (full, 65)] {
        let mut both = Both::read_in(&image);
        for bad in [0, past, past + 1, 257, (1 << 32) + 1, 1 << 63, u64::MAX] {
            for failed in FAILED {
                for (from, to) in [(bad, 1), (2, bad), (bad, bad)] {
                    assert_eq!(both.lookup(from, to, failed), 9, "{from} {to} {failed:#x}");
                }
            }
        }
    }
}

/// Either end, or both, or the one node that is both.
#[test]
fn a_failed_end_is_refused_21() {
    let full = full_image(&mut Rng::new(3));
    for (image, nodes) in [(E1.to_vec(), 2), (e1_short(), 2), (full, 64)] {
        let mut both = Both::read_in(&image);
        for node in [1, 2, nodes] {
            let alone = set_of(&[node]);
            for failed in [alone, alone | !3, alone | 3, u64::MAX] {
                for (from, to) in [(node, node), (node, 1), (1, node), (node, nodes), (2, node)] {
                    assert_eq!(both.lookup(from, to, failed), 21);
                }
            }
            for failed in [0, !alone] {
                assert_eq!(both.lookup(node, node, failed), 0x100 | node << 24);
            }
        }
    }
}

/// P11 and P12.
#[test]
fn bad_ids() {
    for id in [2, 0x100] {
        let settings = [2, 2, 1];
        assert_eq!(Both::new().call(Call::Found { settings, id }), 7);
        assert_eq!(Both::founded(settings, 0).begin(id, 1), 7);
    }
}

/// 10261 joins alone the network of 11261, 13061, 31701 and 10353, in any order of these and by any gateway.
#[test]
fn attach_level_falls_as_depth_grows() {
    let others = [0x11261, 0x13061, 0x31701, 0x10353];
    for (depth, level) in [(1, 3), (2, 2), (3, 1), (4, 0)] {
        for founder in 0..4 {
            for gateway in 1..=4 {
                let mut both = Both::founded([8, 5, depth], others[founder]);
                for step in 1..4 {
                    both.begin(others[(founder + step) % 4], 1);
                    both.settle();
                }
                assert_eq!(both.call(Call::Verdict), CONSISTENT);
                assert_eq!(both.begin(0x10261, gateway), 5 << 8);
                let taken = both.settle();
                let attached = taken.iter().find(|&answer| answer & 0xffff == ATTACHED);
                assert_eq!(attached.unwrap() >> 16 & 0xff, level, "depth {depth}");
                assert_eq!(both.call(Call::Verdict), CONSISTENT);
            }
        }
    }
}

#[test]
fn a_64th_node_joins_and_a_65th_is_refused() {
    for settings in [[16, 2, 1], [4, 4, 2], [2, 7, 3], [16, 8, 4]] {
        let [base, digits, depth] = settings;
        let valid = Settings::new(base, digits, depth).unwrap();
        let ids: Vec<u32> = (0..).filter(|&id| valid.valid(id)).take(65).collect();
        let mut both = Both::founded(settings, ids[0]);
        for (&id, number) in ids[1..64].iter().zip(2..) {
            let gateway = u64::from(id) % (number - 1) + 1;
            assert_eq!(both.begin(id, gateway), number << 8);
            both.settle();
        }
        assert_eq!(both.network().count(), 64);
        assert_eq!(both.call(Call::Verdict), CONSISTENT);
        assert_eq!(both.begin(ids[64], 1), 11);
        assert_eq!(both.lookup(1, 64, 0) & 0xff00_ffff, 0x4000_0100);
    }
}

/// A wait request whose receiver is not in system is refused, and can be delivered later.
#[test]
fn a_held_wait_is_not_answered() {
    let mut both = Both::founded([2, 3, 1], 0x000);
    both.begin(0x100, 1);
    both.settle();
    both.begin(0x010, 1);
    assert_eq!(both.deliver(3, 1), COPIED);
    assert_eq!(both.deliver(3, 1), ATTACHED | 1 << 16);
    both.begin(0x110, 1);
    assert_eq!(both.deliver(4, 1), COPIED);
    assert_eq!(both.deliver(4, 3), 14);
    assert_eq!(both.deliver(3, 2), 0x400 | SETTLED);
    assert_eq!(both.deliver(4, 3) & 0xffff, ATTACHED);
}
