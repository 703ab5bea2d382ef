//! The programs that `tools/build` built, run through pipes.

use std::io::Write;
use std::path::{Path, PathBuf};
use std::process::{Command, Stdio};
use std::thread;

pub fn root() -> PathBuf {
    Path::new(env!("CARGO_MANIFEST_DIR")).join("..")
}

/// Where a program stands once it is built.
pub fn built(program: &str) -> PathBuf {
    root().join(format!("crates/{program}/out/{program}"))
}

/// What a program with its arguments prints in this folder for this input, which goes to it in pieces of at most `piece` bytes.
pub fn printed(command: &[&str], folder: &Path, input: &[u8], piece: usize) -> String {
    let [program, arguments @ ..] = command else {
        unreachable!("a program is named");
    };
    let path = built(program);
    let mut child = Command::new(&path)
        .args(arguments)
        .current_dir(folder)
        .stdin(Stdio::piped())
        .stdout(Stdio::piped())
        .stderr(Stdio::piped())
        .spawn()
        .unwrap_or_else(|error| panic!("{}: {error}; `tools/build` makes it", path.display()));
    let mut pipe = child.stdin.take().expect("it is piped");
    let input = input.to_vec();
    let writer = thread::spawn(move || {
        for part in input.chunks(piece) {
            // A program stops reading where its input is too long, and then the pipe is closed.
            if pipe.write_all(part).and_then(|()| pipe.flush()).is_err() {
                return;
            }
        }
    });
    let output = child.wait_with_output().expect("it ends");
    writer.join().expect("the writer ends");
    assert!(output.status.success(), "{}", output.status);
    assert!(output.stderr.is_empty(), "{:?}", output.stderr);
    String::from_utf8(output.stdout).expect("it prints text")
}
