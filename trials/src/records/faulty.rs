//! Images with one, two and three faults.

use super::faults::{Cause, Fault, Marked};
use super::{networks, Judged, Whole};

/// The numbers in the order in which they are judged.
const ORDER: [u8; 4] = [9, 10, 17, 18];

/// Each cause at every record that can have it.
pub fn one_fault() -> Vec<Judged> {
    let mut all = vec![];
    for whole in networks() {
        for cause in Cause::ALL {
            let places = 0..whole.records.len();
            let faults = places.filter_map(|at| Fault::new(&whole, cause, at));
            all.extend(faults.map(|fault| faulty(&whole, vec![fault])));
        }
    }
    all
}

/// Every two causes in the records of every two nodes, at the first record of each that can have it and at the last.
pub fn two_faults() -> Vec<Judged> {
    let mut all = vec![];
    for whole in networks() {
        for (early, late) in pairs(whole.ids.len()) {
            for (first, second) in pairs_of_causes() {
                for at in places(&whole, early, first) {
                    for other in places(&whole, late, second) {
                        let faults = [(first, at), (second, other)];
                        all.push(faulty(&whole, faults.map(|one| made(&whole, one)).into()));
                    }
                }
            }
        }
    }
    all
}

/// Every three causes in the records of three nodes.
pub fn three_faults() -> Vec<Judged> {
    let mut all = vec![];
    for whole in networks().into_iter().filter(|whole| whole.ids.len() > 2) {
        let last = whole.ids.len();
        for (first, second) in pairs_of_causes() {
            for third in Cause::ALL {
                let of_nodes = [(1, first), (last - 1, second), (last, third)];
                let at = |(node, cause)| Some((cause, places(&whole, node, cause).pop()?));
                let [Some(one), Some(two), Some(three)] = of_nodes.map(at) else {
                    continue;
                };
                let faults = [one, two, three].map(|one| made(&whole, one));
                all.push(faulty(&whole, faults.into()));
            }
        }
    }
    all
}

fn pairs(nodes: usize) -> impl Iterator<Item = (usize, usize)> {
    (1..=nodes).flat_map(move |early| (early + 1..=nodes).map(move |late| (early, late)))
}

fn pairs_of_causes() -> impl Iterator<Item = (Cause, Cause)> {
    let causes = Cause::ALL.into_iter();
    causes.flat_map(|first| Cause::ALL.map(|second| (first, second)))
}

/// The first and the last record of the node that can have the fault, once if they are one.
fn places(whole: &Whole, node: usize, cause: Cause) -> Vec<usize> {
    let of_node = |at: &usize| usize::from(whole.records[*at][0]) == node;
    let can = |at: &usize| Fault::new(whole, cause, *at).is_some();
    let all = (0..whole.records.len()).filter(of_node).filter(can);
    let all: Vec<usize> = all.collect();
    let mut ends: Vec<usize> = all.first().into_iter().chain(all.last()).copied().collect();
    ends.dedup();
    ends
}

fn made(whole: &Whole, (cause, at): (Cause, usize)) -> Fault {
    Fault::new(whole, cause, at).expect("the record can have it")
}

/// The image with these faults. They rise and stand in the records of different nodes, so that none changes what is wrong with another.
fn faulty(whole: &Whole, faults: Vec<Fault>) -> Judged {
    let name = faults
        .iter()
        .map(|fault| format!("{:?} at {} ", fault.cause, fault.from + 1));
    let name = format!("{}in {:?}", name.collect::<String>(), whole.settings);
    let causes: Vec<Cause> = faults.iter().map(|fault| fault.cause).collect();
    let mut records: Vec<Marked> = whole.records.iter().copied().map(Marked::right).collect();
    for fault in faults.into_iter().rev() {
        records.splice(fault.from..fault.from + fault.records, fault.instead);
    }
    let has = |number: &u8| causes.iter().any(|cause| cause.refusal() == *number);
    let refusal = ORDER.into_iter().find(has).expect("there is a fault");
    let place = place(refusal, &causes, &records);
    let bytes = records.iter().map(|record| record.bytes).collect();
    whole.holding(bytes).judged(name, refusal, place)
}

/// The first record that the number speaks of; 0 for number 9 and for an own entry that is absent.
fn place(refusal: u8, causes: &[Cause], records: &[Marked]) -> usize {
    if refusal == 9 || refusal == 18 && causes.contains(&Cause::Absent) {
        return 0;
    }
    let marked = |record: &Marked| record.cause.map(Cause::refusal) == Some(refusal);
    1 + records.iter().position(marked).expect("a record has it")
}
