//! The program run in a folder.

use crate::pipes::printed;

pub use crate::folders::{File, Folder};

/// What the program prints for this script.
pub fn replay(script: &[u8], folder: &Folder) -> String {
    printed(&["replay"], folder.path(), script, script.len().max(1))
}
