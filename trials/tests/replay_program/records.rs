//! Refused records: what `load` says of the number and the place that are known for each image.

use trials::records::{by_hand, long, moved, named, Judged};

use crate::support::{replay, File, Folder};
use crate::words::said;

/// The lines of a script that loads each.
fn loaded(cases: &[Judged]) -> Vec<String> {
    let file = |(number, case): (usize, &Judged)| (format!("image{number}"), case.image.clone());
    let files: Vec<File> = (1..).zip(cases).map(file).collect();
    let script = files.iter().map(|(name, _)| format!("load {name}\n"));
    let script: String = script.collect();
    let printed = replay(script.as_bytes(), &Folder::holding(&files));
    printed.lines().map(String::from).collect()
}

/// In the words of `said`, or by the length of an image that is taken.
fn are_said(cases: &[Judged]) {
    let lines = loaded(cases);
    assert_eq!(lines.len(), cases.len());
    for (case, line) in cases.iter().zip(lines) {
        let taken = |_| format!("load: {} bytes", case.image.len());
        assert_eq!(line, said(case.answer(), taken), "{}", case.name);
    }
}

/// Written out, so that the words are not held against themselves alone.
#[test]
fn these_lines_are_printed() {
    let cases = [
        ("all is right in entries of one", "load: 40 bytes"),
        ("digit 2 of base 2 in the last", "refused 10 at record 6: a level or digit is out of range, or the record is below the one before it"),
        ("[1, 2, 0, 1] at 16380", "refused 10 at record 16380: a level or digit is out of range, or the record is below the one before it"),
        ("not qualified by its suffix", "refused 17 at record 6: the neighbour is not qualified, is in its entry already, or finds it full"),
        ("an owner second, last node", "refused 18 at record 5: an own entry does not start with its owner"),
        ("no records of one", "refused 18: an own entry has no record"),
    ];
    let images = cases.map(|(name, _)| named(name));
    assert_eq!(loaded(&images), cases.map(|(_, line)| line));
}

#[test]
fn those_worked_out_by_hand() {
    are_said(&by_hand());
}

#[test]
fn the_records_of_a_node_moved_to_the_end() {
    are_said(&moved());
}

#[test]
fn as_many_records_as_an_image_holds() {
    are_said(&long());
}
