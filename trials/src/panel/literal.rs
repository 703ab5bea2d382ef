//! A state with a node of each status, and whether it is sound with other counts, worked out by hand.

/// Nodes 1 and 2 settled, 3 notifying with 2 asked and 1 told, 4 waiting for 3, which it matches in 2 of 3 digits, 5 copying from 2, which it
/// matches in none.
pub const ALL_STATUSES: &str = "found 2 3 1 000\nbegin 100 1\ndeliver 2 1\ndeliver 2 1\nbegin 010 1\ndeliver 3 1\ndeliver 3 1\n\
                                begin 110 1\ndeliver 4 1\nbegin 001 2";

/// Words changed at once.
type Words = &'static [(usize, u64)];

/// Node 1's counts are words 14 and 15, node 3's told set is word 29.
#[rustfmt::skip]
pub const SOUND: [Words; 18] = [
    &[(14, 0)], &[(14, 1)], &[(14, 4)], &[(15, 0)], &[(15, 1)], &[(15, 62)], &[(14, 4), (15, 62)], // settled
    &[(22, 0)], &[(22, 4)], &[(23, 62)],
    &[(30, 0)], &[(30, 4)], // notifying
    &[(38, 0)], &[(38, 3)], &[(38, 4)], // waiting
    &[(46, 0)], &[(46, 1)], &[(46, 0), (38, 0), (30, 0), (22, 0)], // copying, and all as if they had sent nothing
];

#[rustfmt::skip]
pub const UNSOUND: [Words; 38] = [
    &[(14, 5)], &[(14, 1 << 32)], &[(14, u64::MAX)], &[(15, 63)], &[(15, 64)], &[(15, 1 << 63)], // settled
    &[(22, 5)], &[(22, 1 << 63)], &[(23, 63)], &[(23, u64::MAX)],
    &[(30, 5)], &[(30, 9)], &[(30, 1 << 32)], &[(30, u64::MAX)], // notifying
    &[(31, 1)], &[(31, 2)], &[(31, 62)], &[(31, 1 << 32)], &[(31, u64::MAX)],
    &[(29, 0)], &[(29, 0), (31, 1)], &[(29, 0), (31, u64::MAX)], &[(29, 0), (31, 62)],
    &[(38, 5)], &[(38, 1 << 63)], &[(38, u64::MAX)], &[(39, 1)], &[(39, 62)], &[(39, u64::MAX)], // waiting
    &[(46, 2)], &[(46, 4)], &[(46, 1 << 32)], &[(46, u64::MAX)], &[(47, 1)], &[(47, 62)], &[(47, 1 << 32)], // copying
    &[(54, 1)], &[(55, 1)], // a number that no node has
];
