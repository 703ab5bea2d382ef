//! The wrong turns that document 01 names, and one more: each case has another answer if the turn is taken.

use trials::by_hand::image;
use trials::second::Settings;

use crate::support::Trial;

#[test]
fn digits_are_counted_from_the_right() {
    let settings = Settings::new(8, 3, 1).unwrap();
    assert_eq!(settings.common_suffix(0x123, 0x124), 0);
    assert_eq!(settings.common_suffix(0x123, 0x723), 2);
}

#[test]
fn the_attach_level_lies_above_every_full_entry() {
    // Node 1 has room at level 0 but none at level 1.
    let mut trial = Trial::read_in(&image([3, 3, 2], &[0x000, 0x100], &[[1, 1, 0, 2]]));
    trial.begin(0x200, 1);
    trial.deliver(3, 1);
    let attached = trial.deliver(3, 1);
    assert_eq!((attached.kind, attached.level), (3, 2));
}

#[test]
fn a_notifying_node_is_stored_from_its_floor_on() {
    // As above, but node 2 is in an entry of node 1 that makes node 3 ask it.
    let more = [[1, 1, 0, 2], [1, 2, 1, 2]];
    let mut trial = Trial::read_in(&image([3, 3, 2], &[0x000, 0x100], &more));
    trial.begin(0x200, 1);
    trial.deliver(3, 1);
    let attached = trial.deliver(3, 1);
    assert_eq!((attached.level, attached.settled), (2, false));
    let tables = &trial.memory.tables;
    assert_eq!(tables[0..4], [1, 0, 0, 0], "level 0 had room");
    assert_eq!(
        tables[64 * 2 + 4 * 2..][..4],
        [3, 0, 0, 0],
        "level 2 has it"
    );
}

#[test]
fn the_owner_counts_among_the_qualified() {
    let verdict = Trial::read_in(&image([2, 2, 2], &[0x00, 0x10], &[])).verdict();
    assert!(!verdict.consistent);
    assert_eq!((verdict.node, verdict.level, verdict.digit), (1, 0, 0));
}

#[test]
fn an_attaching_node_asks_those_that_either_table_knows() {
    // Node 7 copies 3, 4 and 5 from node 1, then attaches to node 2, which knows only 6; for 6 it has no room.
    let ids = [0x00, 0x01, 0x21, 0x02, 0x12, 0x22];
    let more = [
        [1, 0, 1, 2],
        [1, 0, 1, 3],
        [1, 0, 2, 4],
        [1, 0, 2, 5],
        [2, 0, 2, 6],
    ];
    let mut trial = Trial::read_in(&image([3, 2, 2], &ids, &more));
    trial.begin(0x11, 1);
    trial.deliver(7, 1);
    trial.deliver(7, 2);
    let attached = trial.deliver(7, 2);
    assert_eq!(
        (attached.kind, attached.level, attached.settled),
        (3, 0, false)
    );
    assert_eq!(
        trial.memory.state[8 * 7..][..6],
        [0x11, 3, 0, 0, 0b11_1101, 0b10]
    );
    assert_eq!(trial.memory.tables[512 * 6 + 4 * 2..][..4], [4, 5, 0, 0]);
}
