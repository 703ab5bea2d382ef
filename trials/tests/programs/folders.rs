//! Folders for the files of a program.

use std::collections::BTreeMap;
use std::ffi::OsString;
use std::path::{Path, PathBuf};
use std::sync::atomic::{AtomicUsize, Ordering};
use std::{env, fs, process};

/// A file that lies in the folder before the program runs: its name and its bytes.
pub type File = (String, Vec<u8>);

/// A folder of its own, gone at the end.
pub struct Folder(PathBuf);

impl Folder {
    pub fn new() -> Folder {
        static MADE: AtomicUsize = AtomicUsize::new(0);
        let number = MADE.fetch_add(1, Ordering::Relaxed);
        let path = env::temp_dir().join(format!("programs-{}-{number}", process::id()));
        fs::create_dir_all(&path).expect("the folder can be made");
        Folder(path)
    }

    pub fn holding(files: &[File]) -> Folder {
        let folder = Folder::new();
        files.iter().for_each(|file| folder.put(file));
        folder
    }

    pub fn put(&self, (name, bytes): &File) {
        fs::write(self.0.join(name), bytes).expect("the file can be written");
    }

    pub fn path(&self) -> &Path {
        &self.0
    }

    /// What lies in it.
    pub fn files(&self) -> BTreeMap<OsString, Vec<u8>> {
        let entries = fs::read_dir(&self.0).expect("the folder can be read");
        let file = |entry: fs::DirEntry| {
            let bytes = fs::read(entry.path()).expect("the file can be read");
            (entry.file_name(), bytes)
        };
        entries
            .map(|entry| file(entry.expect("it has a name")))
            .collect()
    }
}

impl Drop for Folder {
    fn drop(&mut self) {
        let _ = fs::remove_dir_all(&self.0);
    }
}
