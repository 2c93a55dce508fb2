//! The numbered refusals, one enum for all calls.

/// Why a call gave no answer; the discriminant is the number a report prints.
#[derive(Clone, Copy, Debug, PartialEq, Eq)]
#[repr(u8)]
pub enum Refusal {
    PastCode = 1,
    NeverUploaded = 2,
    UnknownOpcode = 3,
    AddrNotSet = 4,
    DataNotSet = 5,
    NotListed = 6,
    NeverReleased = 7,
    PausedAtExit = 8,
    UnfitInput = 9,
    NotOnFamily = 11,
    OperandTooLarge = 12,
    TooFewBytes = 13,
    TooFewEntries = 14,
    UnfitLog = 15,
    UnfitGate = 16,
    CutShort = 20,
    UnknownKind = 21,
    OutOfOrder = 22,
    TooMany = 23,
    AfterEnd = 24,
    BadFamily = 25,
    FirstAboveLast = 26,
    NoRegister = 27,
    SlotExecuting = 28,
    ClocksOutOfRange = 30,
    JobTooLong = 31,
    NoSlotExecuting = 32,
    UnfitProbe = 33,
}

impl Refusal {
    /// The number as the papers give it.
    pub fn number(self) -> u8 {
        self as u8
    }
}
