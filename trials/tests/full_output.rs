//! What programs do whose output cannot be written: the device /dev/full takes no byte.

#[path = "programs/folders.rs"]
mod folders;
#[path = "programs/pipes.rs"]
mod pipes;

use std::ffi::OsStr;
use std::fs;
use std::process::{Command, Stdio};

use folders::Folder;
use pipes::{built, printed};
use trials::paper::{e1_short, E1};

/// It ends with status 1 and says why on standard error. Its input is a file of the folder that it runs in.
fn fails(command: &[&str], folder: &Folder, input: &str) {
    let [program, arguments @ ..] = command else {
        unreachable!("a program is named");
    };
    let full = fs::File::options().write(true).open("/dev/full");
    let output = Command::new(built(program))
        .args(arguments)
        .current_dir(folder.path())
        .stdin(fs::File::open(folder.path().join(input)).expect("it is there"))
        .stdout(full.expect("the device is there"))
        .stderr(Stdio::piped())
        .output()
        .expect("it runs");
    assert_eq!(output.status.code(), Some(1), "{command:?}");
    assert!(!output.stderr.is_empty(), "{command:?}");
}

#[test]
fn a_program_over_an_image_says_so() {
    let folder = Folder::holding(&[("short".into(), e1_short())]);
    for program in ["verdict", "survey", "fill"] {
        fails(&[program], &folder, "short");
    }
    assert_eq!(folder.files().len(), 1);
}

#[test]
fn fill_writes_its_file_first() {
    let folder = Folder::holding(&[("short".into(), e1_short())]);
    fails(&["fill", "filled"], &folder, "short");
    assert!(folder.files()[OsStr::new("filled")] == E1);
}

#[test]
fn replay_plays_all_lines_first() {
    let script = b"found 2 2 1 0\nsave founded\nbegin 1 1\ndeliver 2 1\nfill\nsave joining 2\n";
    let files = [("script".into(), script.to_vec())];
    let (folder, other) = (Folder::holding(&files), Folder::holding(&files));
    fails(&["replay"], &folder, "script");
    printed(&["replay"], other.path(), script, script.len());
    assert_eq!(other.files().len(), 3);
    assert!(folder.files() == other.files());
}
