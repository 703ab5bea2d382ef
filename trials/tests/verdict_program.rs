//! The verdict program, run through pipes, beside the lines that the second engine's answers make.

#[path = "programs/images.rs"]
mod images;
#[path = "programs/pipes.rs"]
mod pipes;

use images::ImageProgram;
use trials::engine::Second;
use trials::lent::Lent;
use trials::paper::{e1_version_2, JOINING};
use trials::random::{image, image_2};
use trials::script::Call;

const VERDICT: ImageProgram = ImageProgram {
    name: "verdict",
    ending: "out",
    lines,
    refused,
};

/// The line of document 01, or 15.
fn lines(memory: &mut Lent) -> Result<String, u64> {
    let answer = memory.call(&Second, &Call::Verdict);
    match answer.to_le_bytes() {
        [0, consistent, node, level, digit, ..] => Ok(format!(
            "consistent {consistent} at {node} {level} {digit}\n"
        )),
        _ => Err(answer),
    }
}

/// The line of Ticket 2, of a refusal that speaks of records.
fn refused(answer: u64) -> String {
    match answer & 0xff {
        10 | 17 | 18 => format!("record {}\n", answer >> 8),
        _ => String::new(),
    }
}

#[test]
fn bad_records_print_these_lines() {
    VERDICT.bad_records_print(&[
        ("digit 2 of base 2 in the last", "refusal 10\nrecord 6\n"),
        ("not qualified by its suffix", "refusal 17\nrecord 6\n"),
        ("no records of one", "refusal 18\nrecord 0\n"),
        ("an owner second", "refusal 18\nrecord 1\n"),
        ("[1, 2, 0, 1] at 16380", "refusal 10\nrecord 16380\n"),
        ("neighbor 3 of 2 in the last", "refusal 9\n"),
        ("one record too many", "refusal 6\n"),
    ]);
}

#[test]
fn refused_records_are_printed() {
    VERDICT.refused_records_are_printed();
}

#[test]
fn samples_print_what_stands_beside_them() {
    VERDICT.samples_print_what_stands_beside_them();
}

const CONSISTENT: &str = "refusal 0\nconsistent 1 ";
const NOT_CONSISTENT: &str = "refusal 0\nconsistent 0 ";

/// Each of these is met.
fn are_met(printed: &[String], starts: &[&str]) {
    for start in starts {
        let met = printed.iter().any(|lines| lines.starts_with(start));
        assert!(met, "{start}");
    }
}

#[test]
fn random_and_damaged_images_print_the_same() {
    let printed = VERDICT.random_and_damaged_images_print_the_same(image, 400);
    are_met(&printed, &[CONSISTENT, NOT_CONSISTENT]);
}

#[test]
fn random_and_damaged_images_of_version_2_print_the_same() {
    let printed = VERDICT.random_and_damaged_images_print_the_same(image_2, 400);
    let refused = ["refusal 15\n", "refusal 24\n"];
    are_met(&printed, &[CONSISTENT, NOT_CONSISTENT]);
    are_met(&printed, &refused);
    let alone = |lines: &&String| refused.iter().any(|refused| lines.starts_with(refused));
    let mut lines = printed
        .iter()
        .filter(alone)
        .map(|lines| lines.lines().count());
    assert!(lines.all(|count| count == 1));
}

/// A join under way is refused by the verdict, a settled network of version 2 judged.
#[test]
fn images_of_version_2_print_these_lines() {
    let mut waiting = JOINING.to_vec();
    waiting[34] = 2;
    let settled = [&JOINING[..32], &[0, 2, 0, 0, 1, 0]].concat();
    for (image, lines) in [
        (JOINING.to_vec(), "refusal 15\n"),
        (waiting, "refusal 15\n"),
        (e1_version_2(), "refusal 0\nconsistent 1 at 0 0 0\n"),
        (settled, "refusal 0\nconsistent 0 at 1 0 1\n"),
    ] {
        assert_eq!(VERDICT.printed(&image, image.len()), lines);
    }
}

#[test]
fn refused_images_of_version_2_print_one_line() {
    VERDICT.refused_images_of_version_2_print_one_line();
}

#[test]
fn cut_images_print_the_same() {
    VERDICT.cut_images_print_the_same();
}

#[test]
fn a_pipe_may_deliver_in_pieces_of_any_size() {
    VERDICT.a_pipe_may_deliver_in_pieces_of_any_size();
}

#[test]
fn overlong_images_meet_6_if_nothing_earlier() {
    VERDICT.overlong_images_meet_6_if_nothing_earlier();
}
