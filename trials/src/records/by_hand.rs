//! Numbers and places worked out by hand, on a few small images.

use super::edited::{Edited, DIGIT, LEVEL, NEIGHBOR, NODE};
use super::Judged;
use crate::by_hand::image;
use crate::paper::E1;

type Case = (&'static str, Edited, u8, usize);

pub fn by_hand() -> Vec<Judged> {
    let lists = [nodes(), order(), neighbors(), own_entries(), together()];
    let cases = lists.into_iter().flatten();
    let judged = |(name, edited, refusal, place): Case| edited.judged(name, refusal, place);
    cases.map(judged).collect()
}

/// 1: 1 0 0 1, 2: 1 1 0 1; an entry holds 1.
fn one() -> Edited {
    Edited::new(&image([2, 2, 1], &[0x00], &[]))
}

/// 1: 1 0 0 1, 2: 1 0 1 2, 3: 1 1 0 1, 4: 2 0 0 1, 5: 2 0 1 2, 6: 2 1 0 2; an entry holds 1.
fn e1() -> Edited {
    Edited::new(&E1)
}

/// 1: 1 0 0 1, 2: 1 0 0 2, 3: 1 1 0 1, 4: 1 1 1 2, 5: 2 0 0 2, 6: 2 0 0 1, 7: 2 1 0 1, 8: 2 1 1 2; an entry holds 2.
fn two() -> Edited {
    let more = [[1, 0, 0, 2], [1, 1, 1, 2], [2, 0, 0, 1], [2, 1, 0, 1]];
    Edited::new(&image([2, 2, 2], &[0x00, 0x10], &more))
}

/// 1: 1 0 0 1, 2: 1 1 0 1, 3: 1 1 1 2, 4: 2 0 0 2, 5: 2 1 0 1, 6: 2 1 1 2; an entry holds 1, and both nodes qualify for 1 and 4.
fn alike() -> Edited {
    let more = [[1, 1, 1, 2], [2, 1, 0, 1]];
    Edited::new(&image([2, 2, 1], &[0x00, 0x10], &more))
}

/// 1: 1 0 0 1, 2: 1 0 0 2, 3: 1 0 0 3, 4: 1 1 0 1, and so on: three nodes qualify for the first entry.
fn three(depth: u8) -> Edited {
    let more = [[1, 0, 0, 2], [1, 0, 0, 3]];
    Edited::new(&image([2, 3, depth], &[0x000, 0x010, 0x100], &more))
}

#[rustfmt::skip]
fn nodes() -> Vec<Case> {
    vec![
        ("node 0 in the first", e1().with(1, NODE, 0), 9, 0),
        ("node 3 of 2 in the first", e1().with(1, NODE, 3), 9, 0),
        ("neighbor 0 in the first", e1().with(1, NEIGHBOR, 0), 9, 0),
        ("neighbor 3 of 2 inside", e1().with(5, NEIGHBOR, 3), 9, 0),
        ("neighbor 3 of 2 in the last", e1().with(6, NEIGHBOR, 3), 9, 0),
    ]
}

#[rustfmt::skip]
fn order() -> Vec<Case> {
    let two_below = two().exchanged(2, 3).exchanged(6, 7);
    vec![
        ("level 2 of 2 in the first", e1().with(1, LEVEL, 2), 10, 1),
        ("level 2 of 2 inside", e1().with(3, LEVEL, 2), 10, 3),
        ("level 255 in the last", e1().with(6, LEVEL, 255), 10, 6),
        ("digit 2 of base 2 in the first", e1().with(1, DIGIT, 2), 10, 1),
        ("digit 2 of base 2 inside", e1().with(2, DIGIT, 2), 10, 2),
        ("digit 2 of base 2 in the last", e1().with(6, DIGIT, 2), 10, 6),
        ("digit 255 in the last", e1().with(6, DIGIT, 255), 10, 6),
        ("below by node", e1().with(5, NODE, 1), 10, 5),
        ("below a first of a later node", e1().with(1, NODE, 2), 10, 2),
        ("below one of a later node", e1().with(3, NODE, 2), 10, 4),
        ("below by level", two().with(3, LEVEL, 0).with(2, LEVEL, 1), 10, 3),
        ("below one of a later level", e1().with(1, LEVEL, 1), 10, 2),
        ("below by digit", e1().exchanged(1, 2), 10, 2),
        ("below by digit, last node", e1().exchanged(4, 5), 10, 5),
        ("below by level, its digit above", e1().exchanged(5, 6), 10, 6),
        ("two that are below", two_below, 10, 3),
        ("below, then out of range", e1().exchanged(1, 2).with(6, LEVEL, 2), 10, 2),
        ("out of range, then below", e1().with(1, DIGIT, 2).exchanged(5, 6), 10, 1),
        ("node 1 after node 2", e1().turned(3), 10, 4),
        ("the first record at the end", e1().turned(1), 10, 6),
        ("all but the last at the end", e1().turned(5), 10, 2),
    ]
}

#[rustfmt::skip]
fn neighbors() -> Vec<Case> {
    let apart = three(4).again(1).exchanged(2, 3);
    vec![
        ("all is right", two(), 0, 0),
        ("all is right in entries of one", alike(), 0, 0),
        ("not qualified by its digit", e1().with(2, NEIGHBOR, 1), 17, 2),
        ("the owner, not qualified", e1().with(1, DIGIT, 1), 17, 1),
        ("the owner, not qualified, last node", e1().with(4, NEIGHBOR, 2), 17, 4),
        ("not the owner, first record", e1().with(1, NEIGHBOR, 2), 17, 1),
        ("not qualified by its suffix", e1().with(6, NEIGHBOR, 1), 17, 6),
        ("two not qualified", e1().with(4, NEIGHBOR, 2).with(3, NEIGHBOR, 2), 17, 3),
        ("a repeat where there is room", two().again(3), 17, 4),
        ("a repeat where no owner is", two().again(7), 17, 8),
        ("a repeat instead of another", two().with(2, NEIGHBOR, 1), 17, 2),
        ("a repeat, last node", two().with(6, NEIGHBOR, 2), 17, 6),
        ("a repeat not next to it", apart, 17, 3),
        ("a repeat that is over 1", e1().again(6), 17, 7),
        ("a repeat that is over 2", two().again(2), 17, 3),
        ("over 1", three(1), 17, 2),
        ("over 1, last node", alike().again(4).with(5, NEIGHBOR, 1), 17, 5),
        ("over 2", three(2), 17, 3),
        ("not over 3", three(3), 0, 0),
        ("over 2, then a repeat over 2", three(2).again(3), 17, 3),
        ("a repeat, then not qualified", two().with(2, NEIGHBOR, 1).with(7, NEIGHBOR, 2), 17, 2),
        ("not qualified, then a repeat", two().with(4, NEIGHBOR, 1).with(6, NEIGHBOR, 2), 17, 4),
    ]
}

#[rustfmt::skip]
fn own_entries() -> Vec<Case> {
    let two_start = two().exchanged(1, 2).exchanged(5, 6);
    vec![
        ("no records of one", one().without_records(), 18, 0),
        ("no records of two", e1().without_records(), 18, 0),
        ("no records of three", three(4).without_records(), 18, 0),
        ("the first own entry absent", e1().without(1), 18, 0),
        ("the last own entry absent", e1().without(6), 18, 0),
        ("an own entry of two absent", two().without(1).without(1), 18, 0),
        ("an owner second", two().exchanged(1, 2), 18, 1),
        ("an owner second, last node", two().exchanged(5, 6), 18, 5),
        ("an owner not there, another is", two().without(1), 18, 1),
        ("the same, last node", two().without(5), 18, 5),
        ("another for the owner", alike().with(1, NEIGHBOR, 2), 18, 1),
        ("another for the owner, last node", alike().with(4, NEIGHBOR, 1), 18, 4),
        ("another for both owners", alike().with(1, NEIGHBOR, 2).with(4, NEIGHBOR, 1), 18, 1),
        ("an owner third", three(3).exchanged(1, 3), 18, 1),
        ("two own entries start wrong", two_start, 18, 1),
        ("absent before a wrong start", two().exchanged(5, 6).without(3), 18, 0),
        ("absent after a wrong start", two().exchanged(1, 2).without(8), 18, 0),
        ("absent after another for the owner", alike().with(1, NEIGHBOR, 2).without(6), 18, 0),
        ("absent in the next level", two().exchanged(1, 2).without(3), 18, 0),
    ]
}

#[rustfmt::skip]
fn together() -> Vec<Case> {
    let falling = two().exchanged(1, 2).with(4, NEIGHBOR, 1).with(7, LEVEL, 9);
    let rising = two().with(1, DIGIT, 2).with(4, NEIGHBOR, 1).exchanged(5, 6);
    vec![
        ("17, then 10", e1().with(1, NEIGHBOR, 2).with(6, LEVEL, 2), 10, 6),
        ("17 inside, then 10", e1().with(2, NEIGHBOR, 1).with(6, DIGIT, 2), 10, 6),
        ("10, then 17", e1().with(1, LEVEL, 2).with(6, NEIGHBOR, 1), 10, 1),
        ("18, then 17", two().exchanged(1, 2).with(7, NEIGHBOR, 2), 17, 7),
        ("17, then 18", two().with(4, NEIGHBOR, 1).exchanged(5, 6), 17, 4),
        ("18, then 10", two().exchanged(1, 2).with(8, DIGIT, 2), 10, 8),
        ("10, then 18", two().with(4, DIGIT, 2).exchanged(5, 6), 10, 4),
        ("absent, then 17", e1().without(1).with(5, NEIGHBOR, 1), 17, 5),
        ("absent, then a repeat", e1().again(6).without(1), 17, 6),
        ("absent, then 10", e1().without(1).with(5, LEVEL, 2), 10, 5),
        ("17, then absent", e1().with(2, NEIGHBOR, 1).without(6), 17, 2),
        ("18, 17 and 10", falling.clone(), 10, 7),
        ("10, 17 and 18", rising, 10, 1),
        ("10, then 10", e1().with(3, LEVEL, 2).with(6, DIGIT, 2), 10, 3),
        ("17, then 17", e1().with(2, NEIGHBOR, 1).with(6, NEIGHBOR, 1), 17, 2),
        ("9 after 10", e1().with(1, LEVEL, 2).with(6, NEIGHBOR, 0), 9, 0),
        ("9 after one that is below", e1().with(1, LEVEL, 1).with(6, NODE, 3), 9, 0),
        ("9 after 17", e1().with(1, NEIGHBOR, 2).with(6, NODE, 3), 9, 0),
        ("9 after 18", two().exchanged(1, 2).with(8, NEIGHBOR, 3), 9, 0),
        ("9 before 17 and 10", falling.with(1, NODE, 0), 9, 0),
        ("9 where an own entry is absent", e1().without(1).with(1, NEIGHBOR, 65), 9, 0),
    ]
}
