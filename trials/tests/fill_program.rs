//! The fill program, run through pipes, beside the lines and the files that the second engine's fillings make.

#[path = "programs/folders.rs"]
mod folders;
#[path = "programs/images.rs"]
mod images;
#[path = "programs/pipes.rs"]
mod pipes;

use std::ffi::OsStr;
use std::fs;
use std::os::unix::ffi::OsStrExt;
use std::process::Command;

use folders::Folder;
use images::ImageProgram;
use pipes::{built, printed, root};
use trials::engine::Second;
use trials::fills::{settled, with_additions};
use trials::lent::Lent;
use trials::paper::{e1_short, e1_version_2, E1, JOINING};
use trials::random::{image, image_2, seeds, thinned, Rng};
use trials::script::Call;

const FILL: ImageProgram = ImageProgram {
    name: "fill",
    ending: "fill",
    lines,
    refused: |_| String::new(),
};

/// How many were added, and each as a record; or 15.
fn lines(memory: &mut Lent) -> Result<String, u64> {
    let list = list(memory)?;
    let record =
        |[node, level, digit, near]: &[u8; 4]| format!("record {node} {level} {digit} {near}\n");
    let records: String = list.iter().map(record).collect();
    Ok(format!("added {}\n{records}", list.len()))
}

/// What a filling lists, or the answer that it is refused by.
fn list(memory: &mut Lent) -> Result<Vec<[u8; 4]>, u64> {
    let answer = memory.call(&Second, &Call::Fill);
    let length = Call::Fill.written(answer);
    match answer & 0xff {
        0 => Ok(memory.out[..length].as_chunks().0.to_vec()),
        refusal => Err(refusal),
    }
}

/// The image that a taken one is filled to; none where it is refused.
fn filled(image: &[u8]) -> Option<Vec<u8>> {
    let mut memory = Lent::noise();
    let read = Call::Read {
        image: image.to_vec(),
    };
    let taken = memory.call(&Second, &read) == 0;
    let list = taken.then(|| list(&mut memory).ok())??;
    Some(with_additions(image, &list))
}

/// Short, of version 1 or 2, and of version 2 with joins under way or without; those without have counts.
fn short_image(rng: &mut Rng) -> Vec<u8> {
    let whole = match rng.below(3) {
        0 => image(rng),
        1 => image_2(rng),
        _ => settled_image(rng),
    };
    let times = rng.pick(&[1, 2, 8]);
    thinned(rng, &whole, times)
}

fn settled_image(rng: &mut Rng) -> Vec<u8> {
    let mut memory = settled(rng, 64);
    let length = Call::WRITE_2.written(memory.call(&Second, &Call::WRITE_2));
    memory.out[..length].to_vec()
}

/// What is printed with this file as argument.
fn printed_to(file: &str, folder: &Folder, image: &[u8]) -> String {
    printed(&["fill", file], folder.path(), image, image.len().max(1))
}

#[test]
fn these_images_print_these_lines() {
    let settled = [&JOINING[..32], &[0, 2, 3, 62, 1, 0]].concat();
    let mut waiting = JOINING.to_vec();
    waiting[34] = 2;
    let two = "refusal 0\nadded 2\nrecord 1 0 1 2\nrecord 2 0 0 1\n";
    for (image, lines) in [
        (E1.to_vec(), "refusal 0\nadded 0\n"),
        (e1_version_2(), "refusal 0\nadded 0\n"),
        (e1_short(), "refusal 0\nadded 1\nrecord 1 0 1 2\n"),
        (settled, two),
        (JOINING.to_vec(), "refusal 15\n"),
        (waiting, "refusal 15\n"),
    ] {
        assert_eq!(FILL.printed(&image, image.len()), lines);
    }
}

#[test]
fn samples_print_what_stands_beside_them() {
    FILL.samples_print_what_stands_beside_them();
}

/// Node 8 lacks node 10.
#[test]
fn joins_at_once_that_ended_short_are_filled() {
    let short = fs::read(root().join("samples/concurrent-joins.image")).expect("the sample");
    let folder = Folder::new();
    let lines = "refusal 0\nadded 1\nrecord 8 2 2 10\n";
    assert_eq!(printed_to("filled", &folder, &short), lines);
    let filled = fs::read(folder.path().join("filled")).expect("it is written");
    let consistent = "refusal 0\nconsistent 1 at 0 0 0\n";
    assert_eq!(printed(&["verdict"], &root(), &filled, 65_536), consistent);
}

#[test]
fn bad_records_print_one_line() {
    FILL.bad_records_print(&[
        ("digit 2 of base 2 in the last", "refusal 10\n"),
        ("not qualified by its suffix", "refusal 17\n"),
        ("no records of one", "refusal 18\n"),
    ]);
}

#[test]
fn refused_records_are_printed() {
    FILL.refused_records_are_printed();
}

#[test]
fn refused_images_of_version_2_print_one_line() {
    FILL.refused_images_of_version_2_print_one_line();
}

/// Among them are images that gain nothing, one node and many, and refused ones.
#[test]
fn random_and_damaged_images_print_the_same() {
    let printed = FILL.random_and_damaged_images_print_the_same(short_image, 150);
    let count = |has: fn(&str) -> bool| printed.iter().filter(|lines| has(lines)).count();
    let counts = [
        count(|lines| lines.starts_with("refusal 0\nadded 0\n")),
        count(|lines| lines.starts_with("refusal 0\nadded 1\n")),
        count(|lines| lines.lines().count() > 20),
        count(|lines| lines.starts_with("refusal 15\n")),
        count(|lines| lines.starts_with("refusal 24\n")),
    ];
    println!("{counts:?}");
    assert!(counts.iter().all(|&met| met > 4), "{counts:?}");
    let refused = printed
        .iter()
        .filter(|lines| !lines.starts_with("refusal 0\n"));
    assert!(refused.into_iter().all(|lines| lines.lines().count() == 1));
}

#[test]
fn cut_images_print_the_same() {
    FILL.cut_images_print_the_same();
}

#[test]
fn a_pipe_may_deliver_in_pieces_of_any_size() {
    FILL.a_pipe_may_deliver_in_pieces_of_any_size();
}

#[test]
fn overlong_images_meet_6_if_nothing_earlier() {
    FILL.overlong_images_meet_6_if_nothing_earlier();
}

/// In its own version, over whatever the file was before, longer or shorter; a refused one leaves it, and the other files stay.
#[test]
fn the_filled_image_is_written_to_the_file() {
    let (mut written, mut refused) = ([0; 3], 0);
    for seed in seeds(0, 100) {
        let rng = &mut Rng::new(seed);
        let short = short_image(rng);
        let old = vec![7; rng.pick(&[0, 1, 40, 30_000])];
        let other = ("other".to_string(), vec![1, 2, 3]);
        let folder = Folder::holding(&[("file".into(), old.clone()), other]);
        let mut files = folder.files();
        let lines = printed_to("file", &folder, &short);
        assert_eq!(lines, FILL.expected(&short), "seed {seed}");
        match filled(&short) {
            Some(image) => {
                written[usize::from(short[1])] += 1;
                files.insert("file".into(), image);
            }
            None => refused += 1,
        }
        assert!(folder.files() == files, "seed {seed}");
    }
    println!("{written:?} written, {refused} refused");
    assert!(written[1] > 10 && written[2] > 10 && refused > 5);
}

/// A file that is not there is made, and none for a refused image.
#[test]
fn a_file_is_made_only_for_an_image_that_is_taken() {
    for (image, made) in [
        (e1_short(), true),
        (JOINING.to_vec(), false),
        (vec![4], false),
    ] {
        let folder = Folder::new();
        assert_eq!(printed_to("new", &folder, &image), FILL.expected(&image));
        let files = folder.files().into_values();
        let expected = made.then(|| E1.to_vec());
        assert!(files.eq(expected));
    }
}

/// A folder as its name, one in a folder that is not there, and no name: the last line says so, but not of a refused image.
#[test]
fn a_file_that_cannot_be_written_is_named_last() {
    let long = "n".repeat(5_000);
    for name in [".", "nothing/x", "", "/", &long] {
        let folder = Folder::new();
        let lines = "refusal 0\nadded 1\nrecord 1 0 1 2\nthe file cannot be written\n";
        assert_eq!(printed_to(name, &folder, &e1_short()), lines, "{name}");
        assert_eq!(printed_to(name, &folder, &JOINING), "refusal 15\n");
        assert_eq!(printed_to(name, &folder, &[]), "refusal 3\n");
        assert!(folder.files().is_empty(), "{name}");
    }
}

/// The file is read to its end before it is written.
#[test]
fn an_image_is_filled_in_its_own_file() {
    for seed in seeds(1_000, 20) {
        let short = short_image(&mut Rng::new(seed));
        let folder = Folder::new();
        folder.put(&("own".into(), short.clone()));
        let own = folder.path().join("own");
        let output = Command::new(built("fill"))
            .arg(&own)
            .stdin(fs::File::open(&own).expect("it is there"))
            .output()
            .expect("it runs");
        let lines = String::from_utf8(output.stdout).expect("it prints text");
        assert_eq!(lines, FILL.expected(&short), "seed {seed}");
        let left = fs::read(&own).expect("it is there");
        assert!(left == filled(&short).unwrap_or(short), "seed {seed}");
    }
}

/// A name that is no UTF-8 text is that of no file.
#[test]
fn a_file_has_a_name_of_text() {
    for (name, is_text) in [
        (&b"\xff"[..], false),
        (b"a\xff", false),
        (b"\xc3\xa9", true),
    ] {
        let folder = Folder::new();
        folder.put(&("short".into(), e1_short()));
        let output = Command::new(built("fill"))
            .arg(OsStr::from_bytes(name))
            .current_dir(folder.path())
            .stdin(fs::File::open(folder.path().join("short")).expect("it is there"))
            .output()
            .expect("it runs");
        let last = if is_text {
            ""
        } else {
            "the file cannot be written\n"
        };
        let lines = FILL.expected(&e1_short()) + last;
        assert_eq!(output.stdout, lines.as_bytes());
        assert!(output.status.success() && output.stderr.is_empty());
        assert_eq!(folder.files().len(), 1 + usize::from(is_text));
    }
}

/// Nothing is read and no file touched.
#[test]
fn more_than_one_argument_is_too_many() {
    for names in [&["a", "b"][..], &["a", "a"], &["b", "a", "c"], &["", ""]] {
        let folder = Folder::holding(&[("a".into(), vec![1]), ("b".into(), vec![])]);
        let files = folder.files();
        let command = [&["fill"][..], names].concat();
        for image in [&E1[..], &e1_short(), &[4], &[0; 200_000]] {
            let lines = printed(&command, folder.path(), image, 65_536);
            assert_eq!(lines, "one file at most\n");
        }
        assert!(folder.files() == files);
    }
}
