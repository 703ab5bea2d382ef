//! Engines that write images wrong are seen, also where they read them wrong in the same way.

use crate::spoiled::{SpoilReading, SpoilWriting, Spoiled, UNSPOILED};
use crate::wrong_images::{image_is_seen, ASKED, NOTICES, REQUESTS, TOLD};

/// What goes wrong, and by which of the trials it must be seen.
type Wrong = (&'static str, SpoilWriting, &'static str);

const ALL: &str = "by hand, in order, stopped, round trips, unreached, longest";
const WITH_SETS: &str = "by hand, stopped, round trips, unreached, longest";

/// The asked and the told set of a piece of section four.
fn sets(piece: &mut [u8; 20]) -> (&mut [u8], &mut [u8]) {
    piece[4..].split_at_mut(8)
}

const SECTIONS: [Wrong; 11] = [
    (
        "the two counts are exchanged",
        |after| after.sections(|joins| joins.panels.iter_mut().for_each(|panel| panel.reverse())),
        ALL,
    ),
    (
        "the counts are zeros",
        |after| after.sections(|joins| joins.panels.fill([0; 2])),
        ALL,
    ),
    (
        "only the nodes that are not settled have counts",
        |after| after.sections(|joins| joins.panels.truncate(joins.unsettled.len())),
        ALL,
    ),
    (
        "asked and told are exchanged",
        |after| {
            after.sections(|joins| {
                let pieces = joins.unsettled.iter_mut();
                pieces.for_each(|piece| {
                    let (asked, told) = sets(piece);
                    asked.swap_with_slice(told);
                });
            });
        },
        WITH_SETS,
    ),
    (
        "the sets are written high byte first",
        |after| {
            after.sections(|joins| {
                let pieces = joins.unsettled.iter_mut();
                pieces.for_each(|piece| {
                    let (asked, told) = sets(piece);
                    asked.reverse();
                    told.reverse();
                });
            });
        },
        WITH_SETS,
    ),
    (
        "section four falls",
        |after| after.sections(|joins| joins.unsettled.reverse()),
        WITH_SETS,
    ),
    (
        "section four has all nodes",
        |after| {
            after.sections(|joins| {
                let nodes = joins.panels.len() as u8;
                let settled = (1..=nodes).filter(|node| {
                    let mut pieces = joins.unsettled.iter();
                    !pieces.any(|piece| piece[0] == *node)
                });
                let settled: Vec<[u8; 20]> = settled.map(piece_of).collect();
                joins.unsettled.extend(settled);
                joins.unsettled.sort();
            });
        },
        "by hand, in order, stopped, round trips, unreached",
    ),
    (
        "section four has no notifying node",
        |after| after.sections(|joins| joins.unsettled.retain(|piece| piece[1] != 3)),
        WITH_SETS,
    ),
    (
        "the attach level is the target, and the target the attach level",
        |after| {
            after.sections(|joins| {
                let pieces = joins.unsettled.iter_mut();
                pieces.for_each(|piece| piece.swap(2, 3));
            });
        },
        "by hand, in order, stopped, round trips, unreached",
    ),
    (
        "the version byte is 1",
        |after| {
            if after.saves() {
                after.out[1] = 1;
            }
        },
        ALL,
    ),
    (
        "a byte past the image is changed",
        |after| {
            let length = (after.answer >> 8) as usize;
            if after.saves() && length < after.out.len() {
                after.out[length] ^= 1;
            }
        },
        "by hand, in order, stopped, round trips, unreached",
    ),
];

/// A settled node's.
fn piece_of(node: u8) -> [u8; 20] {
    let mut piece = [0; 20];
    piece[0] = node;
    piece
}

#[test]
fn sections_that_are_written_wrong_are_seen() {
    are_seen(&SECTIONS);
}

const REFUSED: [Wrong; 10] = [
    (
        "15 applies to version 2",
        |after| {
            if after.version == 2 && matches!(after.answer & 0xff, 0 | 16) && after.is_joining() {
                after.refuse(15);
            }
        },
        ALL,
    ),
    (
        "version 2 is refused by 4",
        |after| {
            if after.version == 2 && matches!(after.answer & 0xff, 0 | 16) {
                after.refuse(4);
            }
        },
        ALL,
    ),
    (
        "15 applies to no version",
        |after| {
            if after.answer == 15 {
                let whole = after.other(2);
                let (records, _) = whole.split_at(trials::random::before_joins(&whole).unwrap());
                let image = [&[4, 1], &records[2..]].concat();
                after.write(&image);
            }
        },
        "in order, round trips",
    ),
    (
        "joins under way are written as version 2 whatever is named",
        |after| {
            if after.answer == 15 {
                after.write_other(2);
            }
        },
        "in order, round trips",
    ),
    (
        "version 1 is refused by 4",
        |after| {
            if after.version == 1 && !matches!(after.answer, 1 | 2) {
                after.refuse(4);
            }
        },
        "in order, round trips",
    ),
    (
        "the version is cut to a byte",
        |after| {
            if after.answer == 4 && matches!(after.version & 0xff, 1 | 2) {
                after.write_other(after.version & 0xff);
            }
        },
        "in order",
    ),
    (
        "other versions are written as version 2",
        |after| {
            if after.answer == 4 {
                after.write_other(2);
            }
        },
        "in order",
    ),
    (
        "15 goes before 4",
        |after| {
            if after.answer == 4 && after.is_joining() {
                after.answer = 15;
            }
        },
        "in order",
    ),
    (
        "16 goes before 15 and 4",
        |after| {
            let length = after.other(2).len();
            if matches!(after.answer, 4 | 15) && after.out.len() < length {
                after.answer = 16;
            }
        },
        "in order",
    ),
    (
        "16 is judged by the records' end",
        |after| {
            let whole = after.other(2);
            let records = trials::random::before_joins(&whole).unwrap_or(0);
            if after.version == 2 && after.answer == 16 && after.out.len() >= records {
                after.write(&whole);
            }
        },
        "in order, longest",
    ),
];

#[test]
fn a_writing_that_is_refused_wrong_is_seen() {
    are_seen(&REFUSED);
}

fn are_seen(wrong: &[Wrong]) {
    for &(what, save, by) in wrong {
        image_is_seen(what, Spoiled { save, ..UNSPOILED }, by);
    }
}

/// Wrong in the same way on both sides, so that what is saved is restored.
const BOTH_SIDES: [(&str, SpoilWriting, SpoilReading, &str); 3] = [
    (
        "the two counts are exchanged",
        SECTIONS[0].1,
        |after| {
            after.instead(|joins, _| joins.panels.iter_mut().for_each(|panel| panel.reverse()));
            after.records(|record| record.swap(REQUESTS, NOTICES));
        },
        ALL,
    ),
    (
        "asked and told are exchanged",
        SECTIONS[3].1,
        |after| after.records(|record| record.swap(ASKED, TOLD)),
        WITH_SETS,
    ),
    (
        "the sets have their high byte first",
        SECTIONS[4].1,
        |after| {
            after.records(|record| {
                record[ASKED] = record[ASKED].swap_bytes();
                record[TOLD] = record[TOLD].swap_bytes();
            });
        },
        WITH_SETS,
    ),
];

#[test]
fn writing_and_reading_wrong_in_the_same_way_is_seen() {
    for (what, save, restore, by) in BOTH_SIDES {
        let wrong = Spoiled {
            save,
            restore,
            ..UNSPOILED
        };
        image_is_seen(what, wrong, by);
    }
}
