//! Why a call declines; the numbers are those of the paper's sentences.

#[derive(Clone, Copy, Debug, PartialEq, Eq)]
pub enum Refusal {
    ShortMemory = 1,
    Unsound = 2,
    NotAnImage = 3,
    ImageVersion = 4,
    BadSetting = 5,
    ImageCounts = 6,
    BadId = 7,
    IdTaken = 8,
    NoSuchNode = 9,
    RecordOrder = 10,
    Full = 11,
    GatewayNotInSystem = 12,
    NotOutstanding = 13,
    Held = 14,
    JoinInFlight = 15,
    ShortOutput = 16,
    RecordNeighbor = 17,
    OwnEntry = 18,
    NotHighest = 19,
    HasAttached = 20,
    HasFailed = 21,
    TraceCounts = 22,
    StepNotAllowed = 23,
    UnsoundImage = 24,
}

impl Refusal {
    /// Every refusal, in the order of the numbers.
    pub const ALL: [Refusal; 24] = [
        Refusal::ShortMemory,
        Refusal::Unsound,
        Refusal::NotAnImage,
        Refusal::ImageVersion,
        Refusal::BadSetting,
        Refusal::ImageCounts,
        Refusal::BadId,
        Refusal::IdTaken,
        Refusal::NoSuchNode,
        Refusal::RecordOrder,
        Refusal::Full,
        Refusal::GatewayNotInSystem,
        Refusal::NotOutstanding,
        Refusal::Held,
        Refusal::JoinInFlight,
        Refusal::ShortOutput,
        Refusal::RecordNeighbor,
        Refusal::OwnEntry,
        Refusal::NotHighest,
        Refusal::HasAttached,
        Refusal::HasFailed,
        Refusal::TraceCounts,
        Refusal::StepNotAllowed,
        Refusal::UnsoundImage,
    ];

    /// How many numbers an answer may have: 0, and that of each refusal.
    pub const NUMBERS: usize = Refusal::ALL.len() + 1;

    /// Declines when `so` holds; a call's sentences stand one below the other as `refusal.when(..)?`.
    pub fn when(self, so: bool) -> Result<(), Refusal> {
        if so {
            Err(self)
        } else {
            Ok(())
        }
    }
}
