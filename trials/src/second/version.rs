//! The versions of an image that are read and written.

#[derive(Clone, Copy, Debug, PartialEq, Eq)]
pub enum Version {
    /// Of a network whose nodes are all in system: settings, ids and records.
    One = 1,
    /// Of any network: the same, then the joins under way and every node's counts.
    Two = 2,
}

impl Version {
    pub fn new(number: u64) -> Option<Version> {
        match number {
            1 => Some(Version::One),
            2 => Some(Version::Two),
            _ => None,
        }
    }
}
