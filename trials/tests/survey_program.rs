//! The survey program, run through pipes, beside the lines that the second engine's counts make.

#[path = "programs/images.rs"]
mod images;
#[path = "programs/pipes.rs"]
mod pipes;

use images::ImageProgram;
use trials::by_hand::surveyed;
use trials::engine::Second;
use trials::lent::Lent;
use trials::paper::{e1_short, e1_version_2, E1, JOINING};
use trials::random::{image, image_2};
use trials::script::Call;
use trials::second::memory::DIGITS;
use trials::second::{Counts, LOST};

const SURVEY: ImageProgram = ImageProgram {
    name: "survey",
    ending: "survey",
    lines,
    refused: |_| String::new(),
};

/// The lines of Ticket 1; joins under way are no refusal.
fn lines(memory: &mut Lent) -> Result<String, u64> {
    assert_eq!(memory.call(&Second, &Call::Survey { failed: 0 }), 0);
    let digits = memory.state[DIGITS] as usize;
    Ok(lines_of(digits, memory.used_counts()))
}

fn lines_of(digits: usize, counts: &Counts) -> String {
    let hops = (1..).zip(&counts[..digits]);
    let lines = hops.map(|(hops, count)| format!("hops {hops} {count}\n"));
    let lost = format!("lost {}\n", counts[LOST]);
    lines.chain([lost]).collect()
}

#[test]
fn e1_and_short_e1_print_these_lines() {
    let whole = "refusal 0\nhops 1 2\nhops 2 0\nlost 0\n";
    assert_eq!(SURVEY.printed(&E1, E1.len()), whole);
    let short = "refusal 0\nhops 1 1\nhops 2 0\nlost 1\n";
    assert_eq!(SURVEY.printed(&e1_short(), E1.len()), short);
}

#[test]
fn counts_worked_out_by_hand_are_printed() {
    for case in surveyed() {
        let lines = lines_of(case.image[3].into(), &case.counts);
        let printed = SURVEY.printed(&case.image, case.image.len());
        assert_eq!(printed, format!("refusal 0\n{lines}"), "{}", case.name);
    }
}

/// All nodes are counted, those that join too.
#[test]
fn images_of_version_2_print_these_lines() {
    let mut knows = JOINING.to_vec();
    // Node 2 waits, and knows node 1.
    knows.splice(24..24, [2, 0, 0, 1]);
    (knows[14], knows[38]) = (5, 2);
    for (image, lines) in [
        (JOINING.to_vec(), "refusal 0\nhops 1 0\nhops 2 0\nlost 2\n"),
        (knows, "refusal 0\nhops 1 1\nhops 2 0\nlost 1\n"),
        (e1_version_2(), "refusal 0\nhops 1 2\nhops 2 0\nlost 0\n"),
    ] {
        assert_eq!(SURVEY.printed(&image, image.len()), lines);
    }
}

#[test]
fn refused_images_of_version_2_print_one_line() {
    SURVEY.refused_images_of_version_2_print_one_line();
}

/// A refusal is one line, whichever it is.
#[test]
fn bad_records_print_one_line() {
    SURVEY.bad_records_print(&[
        ("digit 2 of base 2 in the last", "refusal 10\n"),
        ("not qualified by its suffix", "refusal 17\n"),
        ("no records of one", "refusal 18\n"),
    ]);
}

#[test]
fn refused_records_are_printed() {
    SURVEY.refused_records_are_printed();
}

#[test]
fn samples_print_what_stands_beside_them() {
    SURVEY.samples_print_what_stands_beside_them();
}

/// Among them are images with lost pairs, with several hops and with refusals.
#[test]
fn random_and_damaged_images_print_the_same() {
    let printed = SURVEY.random_and_damaged_images_print_the_same(image, 400);
    let count = |has: fn(&str) -> bool| printed.iter().filter(|lines| has(lines)).count();
    let losing = count(|lines| lines.contains("lost ") && !lines.contains("lost 0\n"));
    let far = count(|lines| lines.contains("hops 3 ") && !lines.contains("hops 3 0\n"));
    let refused = count(|lines| !lines.starts_with("refusal 0\n"));
    assert!(
        losing > 30 && far > 30 && refused > 300,
        "{losing} losing, {far} far, {refused} refused"
    );
}

/// Among them are images with joins under way, and some that are refused 24.
#[test]
fn random_and_damaged_images_of_version_2_print_the_same() {
    let printed = SURVEY.random_and_damaged_images_print_the_same(image_2, 400);
    let count = |start: &str| {
        let starts = printed.iter().filter(|lines| lines.starts_with(start));
        starts.count()
    };
    let (taken, refused, joining) = (
        count("refusal 0\n"),
        count("refusal 24\n"),
        count("refusal 15\n"),
    );
    assert!(taken > 300 && refused > 100, "{taken}, {refused}");
    assert_eq!(joining, 0);
}

#[test]
fn cut_images_print_the_same() {
    SURVEY.cut_images_print_the_same();
}

#[test]
fn a_pipe_may_deliver_in_pieces_of_any_size() {
    SURVEY.a_pipe_may_deliver_in_pieces_of_any_size();
}

#[test]
fn overlong_images_meet_6_if_nothing_earlier() {
    SURVEY.overlong_images_meet_6_if_nothing_earlier();
}
