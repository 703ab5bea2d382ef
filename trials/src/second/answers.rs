//! What each call answers: the refusal first, 0 if none; on a refusal every other field is zero, but for the place of a reading and
//! that of a trace.

use super::refusal::Refusal;

/// An answer can be a bare refusal, and packs into one word.
pub trait Answer: Sized {
    fn refused(refusal: Refusal) -> Self;

    /// Bits 0 to 7 the refusal, the other fields above it.
    fn pack(&self) -> u64;

    fn of(result: Result<Self, Refusal>) -> Self {
        result.unwrap_or_else(Self::refused)
    }
}

/// Puts eight-bit fields above the refusal, the first one lowest; the last may be wider.
fn packed(refusal: u8, fields: &[u64]) -> u64 {
    fields
        .iter()
        .rev()
        .fold(0, |word, field| (word | field) << 8)
        | u64::from(refusal)
}

/// Founding.
#[derive(Clone, Copy, Debug, Default, PartialEq, Eq)]
pub struct FoundAnswer {
    pub refusal: u8,
}

/// Reading: where a record is refused its place, counted from 1, else 0.
#[derive(Clone, Copy, Debug, Default, PartialEq, Eq)]
pub struct ReadAnswer {
    pub refusal: u8,
    pub place: u64,
}

/// Beginning a join: the new node's number.
#[derive(Clone, Copy, Debug, Default, PartialEq, Eq)]
pub struct BeginAnswer {
    pub refusal: u8,
    pub node: u64,
}

/// Withdrawing a join.
#[derive(Clone, Copy, Debug, Default, PartialEq, Eq)]
pub struct WithdrawAnswer {
    pub refusal: u8,
}

/// A delivery: 1 copied, 2 sent on, 3 attached with its level, 4 notified; and whether the sender settled.
#[derive(Clone, Copy, Debug, Default, PartialEq, Eq)]
pub struct DeliverAnswer {
    pub refusal: u8,
    pub kind: u64,
    pub level: u64,
    pub settled: bool,
}

/// A lookup.
#[derive(Clone, Copy, Debug, Default, PartialEq, Eq)]
pub struct LookupAnswer {
    pub refusal: u8,
    pub arrived: bool,
    pub hops: u64,
    pub last: u64,
}

/// A verdict; on a no, the first entry that falls short.
#[derive(Clone, Copy, Debug, Default, PartialEq, Eq)]
pub struct VerdictAnswer {
    pub refusal: u8,
    pub consistent: bool,
    pub node: u64,
    pub level: u64,
    pub digit: u64,
}

/// How many ordered pairs of different nodes a survey counts: at h − 1 those whose lookup arrives in h hops, 1 to 8; last the lost ones.
pub type Counts = [u64; LOST + 1];
/// The place of the lost ones.
pub const LOST: usize = 8;

/// A survey; its counts do not go into the packed word.
#[derive(Clone, Copy, Debug, Default, PartialEq, Eq)]
pub struct SurveyAnswer {
    pub refusal: u8,
    pub counts: Counts,
}

/// Checking a trace: where a node or a step is refused its path, and its place in it or the step's, counted from 1, else zeros.
#[derive(Clone, Copy, Debug, Default, PartialEq, Eq)]
pub struct TraceAnswer {
    pub refusal: u8,
    pub path: u64,
    pub place: u64,
}

/// Filling: how many nodes were added to entries.
#[derive(Clone, Copy, Debug, Default, PartialEq, Eq)]
pub struct FillAnswer {
    pub refusal: u8,
    pub additions: u64,
}

/// Writing: the image's length.
#[derive(Clone, Copy, Debug, Default, PartialEq, Eq)]
pub struct WriteAnswer {
    pub refusal: u8,
    pub length: u64,
}

impl Answer for FoundAnswer {
    fn refused(refusal: Refusal) -> FoundAnswer {
        FoundAnswer {
            refusal: refusal as u8,
        }
    }

    fn pack(&self) -> u64 {
        packed(self.refusal, &[])
    }
}

impl Answer for ReadAnswer {
    fn refused(refusal: Refusal) -> ReadAnswer {
        ReadAnswer {
            refusal: refusal as u8,
            ..ReadAnswer::default()
        }
    }

    fn pack(&self) -> u64 {
        packed(self.refusal, &[self.place])
    }
}

impl Answer for BeginAnswer {
    fn refused(refusal: Refusal) -> BeginAnswer {
        BeginAnswer {
            refusal: refusal as u8,
            ..BeginAnswer::default()
        }
    }

    fn pack(&self) -> u64 {
        packed(self.refusal, &[self.node])
    }
}

impl Answer for WithdrawAnswer {
    fn refused(refusal: Refusal) -> WithdrawAnswer {
        WithdrawAnswer {
            refusal: refusal as u8,
        }
    }

    fn pack(&self) -> u64 {
        packed(self.refusal, &[])
    }
}

impl Answer for DeliverAnswer {
    fn refused(refusal: Refusal) -> DeliverAnswer {
        DeliverAnswer {
            refusal: refusal as u8,
            ..DeliverAnswer::default()
        }
    }

    fn pack(&self) -> u64 {
        packed(self.refusal, &[self.kind, self.level, self.settled.into()])
    }
}

impl Answer for LookupAnswer {
    fn refused(refusal: Refusal) -> LookupAnswer {
        LookupAnswer {
            refusal: refusal as u8,
            ..LookupAnswer::default()
        }
    }

    fn pack(&self) -> u64 {
        packed(self.refusal, &[self.arrived.into(), self.hops, self.last])
    }
}

impl Answer for VerdictAnswer {
    fn refused(refusal: Refusal) -> VerdictAnswer {
        VerdictAnswer {
            refusal: refusal as u8,
            ..VerdictAnswer::default()
        }
    }

    fn pack(&self) -> u64 {
        let consistent = self.consistent.into();
        packed(
            self.refusal,
            &[consistent, self.node, self.level, self.digit],
        )
    }
}

impl Answer for SurveyAnswer {
    fn refused(refusal: Refusal) -> SurveyAnswer {
        SurveyAnswer {
            refusal: refusal as u8,
            ..SurveyAnswer::default()
        }
    }

    fn pack(&self) -> u64 {
        packed(self.refusal, &[])
    }
}

impl Answer for TraceAnswer {
    fn refused(refusal: Refusal) -> TraceAnswer {
        TraceAnswer {
            refusal: refusal as u8,
            ..TraceAnswer::default()
        }
    }

    fn pack(&self) -> u64 {
        packed(self.refusal, &[self.path, self.place])
    }
}

impl Answer for FillAnswer {
    fn refused(refusal: Refusal) -> FillAnswer {
        FillAnswer {
            refusal: refusal as u8,
            ..FillAnswer::default()
        }
    }

    fn pack(&self) -> u64 {
        packed(self.refusal, &[self.additions])
    }
}

impl Answer for WriteAnswer {
    fn refused(refusal: Refusal) -> WriteAnswer {
        WriteAnswer {
            refusal: refusal as u8,
            ..WriteAnswer::default()
        }
    }

    fn pack(&self) -> u64 {
        packed(self.refusal, &[self.length])
    }
}
