//! Refused records: both engines answer the number and the place that are known for each image.

use trials::archive::Archive;
use trials::compare::Pair;
use trials::engine::Second;
use trials::records::{by_hand, long, moved, one_bit, one_fault, three_faults, two_faults};
use trials::records::{two_replaced, Judged};
use trials::script::{Call, Line};

use crate::support::Both;

fn are_judged(cases: Vec<Judged>) {
    assert!(!cases.is_empty());
    for part in cases.chunks(500) {
        let mut both = Both::new();
        for case in part {
            assert_eq!(both.read(&case.image), case.answer(), "{}", case.name);
            if case.refusal == 0 {
                assert_eq!(both.image(1), case.image, "{}", case.name);
            }
        }
    }
}

#[test]
fn those_worked_out_by_hand() {
    are_judged(by_hand());
}

#[test]
fn a_neighbor_that_differs_in_one_bit() {
    are_judged(one_bit().iter().map(|case| case.judged()).collect());
}

#[test]
fn one_fault_at_every_record() {
    are_judged(one_fault());
}

#[test]
fn two_faults_in_any_order() {
    are_judged(two_faults());
}

#[test]
fn three_faults_in_any_order() {
    are_judged(three_faults());
}

#[test]
fn the_records_of_a_node_moved_to_the_end() {
    are_judged(moved());
}

#[test]
fn as_many_records_as_an_image_holds() {
    are_judged(long());
}

/// The second engine is held against the literal judge on these.
#[test]
fn two_records_replaced_by_anything() {
    let mut pair = Pair::new(&Archive, &Second);
    for image in two_replaced() {
        let call = Line::Call(Call::Read { image });
        pair.obey(&call)
            .unwrap_or_else(|what| panic!("{call}\n{what}"));
    }
}
