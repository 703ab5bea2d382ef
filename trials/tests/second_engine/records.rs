//! Refused records: the number and the place, by hand, by the fault that was put in, and by the literal judge.

use trials::lent::Lent;
use trials::plain::plain_records;
use trials::random::{image, image_damages, parts, seeds, Rng};
use trials::records::{by_hand, long, moved, networks, one_fault, three_faults, two_faults};
use trials::records::{two_replaced, Cause, Judged};
use trials::second::Refusal;

use crate::support::Trial;

/// Reads each into the same memory, which a refused one leaves as it is; also answers how many there were.
fn are_judged(cases: Vec<Judged>) -> usize {
    let (mut trial, before) = (Trial::new(), Lent::noise());
    for case in &cases {
        let read = trial.read(&case.image);
        let answer = (read.refusal, read.place);
        assert_eq!(answer, (case.refusal, case.place), "{}", case.name);
        if read.refusal == 0 {
            assert_eq!(trial.image(1), case.image, "{}", case.name);
            trial = Trial::new();
        }
        assert!(trial.memory == before, "{}", case.name);
    }
    cases.len()
}

#[test]
fn those_worked_out_by_hand() {
    assert!(are_judged(by_hand()) > 60);
}

#[test]
fn one_fault_at_every_record() {
    are_judged(one_fault());
}

/// Networks of one node or one digit leave no room for some.
#[test]
fn every_cause_is_met() {
    let cases = one_fault();
    for cause in Cause::ALL {
        let of_cause = |case: &&Judged| case.name.starts_with(&format!("{cause:?} "));
        let met = cases.iter().filter(of_cause).count();
        assert!(met > 20, "{cause:?}: {met}");
    }
}

#[test]
fn two_faults_in_any_order() {
    assert!(are_judged(two_faults()) > 10_000);
}

#[test]
fn three_faults_in_any_order() {
    assert!(are_judged(three_faults()) > 3_000);
}

#[test]
fn the_records_of_a_node_moved_to_the_end() {
    assert!(are_judged(moved()) > 20);
}

#[test]
fn as_many_records_as_an_image_holds() {
    let cases = long();
    let far = cases.iter().filter(|case| case.place > 9_999).count();
    assert!(far >= 20, "{far}");
    are_judged(cases);
}

/// What the faults are put into is taken as it is.
#[test]
fn the_networks_are_right() {
    for whole in networks() {
        let image = whole.holding(whole.records.clone()).image();
        assert_eq!(Trial::read_in(&image).image(1), image);
    }
}

/// Reads an image as the literal judge says of its records, if nothing before them is refused; also answers number and place.
fn agrees(trial: &mut Trial, image: &[u8]) -> Option<(u8, u64)> {
    let read = trial.read(image);
    if !matches!(read.refusal, 0 | 9 | 10 | 17 | 18) {
        return None;
    }
    let (_, records) = parts(image).expect("it has its counts");
    let answer = (read.refusal, read.place);
    assert_eq!(answer, plain_records(image, &records), "{image:?}");
    Some(answer)
}

/// How often a number comes with no place and with one.
#[derive(Debug, Default)]
struct Met([[usize; 2]; Refusal::NUMBERS]);

impl Met {
    fn add(&mut self, (refusal, place): (u8, u64)) {
        self.0[usize::from(refusal)][usize::from(place > 0)] += 1;
    }

    /// Every number that records can have, more than so often.
    fn all(&self, times: usize) {
        let [none, some] = [0, 1].map(|place| self.0.map(|counts| counts[place]));
        for refusal in [0, 9, 18] {
            assert!(none[refusal] > times, "{refusal}: {self:?}");
        }
        for refusal in [10, 17, 18] {
            assert!(some[refusal] > times, "{refusal}: {self:?}");
        }
    }
}

#[test]
fn the_literal_judge_agrees_on_damaged_images() {
    let (mut trial, mut met) = (Trial::new(), Met::default());
    for seed in seeds(700, 250) {
        let mut rng = Rng::new(seed);
        let whole = image(&mut rng);
        if whole.len() > 1_500 {
            continue;
        }
        for _ in 0..20 {
            for damaged in image_damages(&mut rng, &whole) {
                if let Some(answer) = agrees(&mut trial, &damaged) {
                    met.add(answer);
                }
            }
        }
    }
    met.all(100);
}

#[test]
fn the_literal_judge_agrees_where_two_records_are_replaced() {
    let (mut trial, mut met) = (Trial::new(), Met::default());
    for image in two_replaced() {
        met.add(agrees(&mut trial, &image).expect("all before the records is right"));
    }
    met.all(20);
}
