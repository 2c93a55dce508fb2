//! Deliberate misreadings of the papers, so that a comparison with this program can be tested itself.

#[cfg(feature = "misreadings")]
use std::sync::atomic::{AtomicU8, Ordering};

/// A rule read wrongly; the place where the rule stands asks for it and says what the papers say.
#[derive(Clone, Copy, Debug, PartialEq, Eq)]
pub enum Misreading {
    /// An event without a reading counts as 0 and so releases an ewait for 0.
    UnrecordedEventIsZero,
    /// Exit moves IP past itself.
    IpPastExit,
    /// addrlo and datalo clear the high half.
    ZeroFilledHalves,
    /// 5f on family 1 is an ewait with its operands.
    OperandsOf5fOnFamily1,
    /// The writer refuses with 13 before 12.
    SwappedRefusalOrder,
    /// A job's end is refused with 32 before 24.
    SwappedJobRefusals,
    /// A wait cut off by the log's end counts all its clocks as spent.
    UnfinishedWaitCountedWhole,
    /// Volts just at the high level of a normal gate are no reading.
    HighLevelExcluded,
    /// The last address of an allowed range is outside it.
    PokeOutsideRangeAtLast,
    /// An abort leaves an executing slot hung, one that was hung already too.
    AbortHangs,
    /// A wait is told by the clocks it took, not by when it ended.
    WaitMeasuredByLength,
    /// Filling in takes the other value for a reading the row had already.
    KnownReadingChanged,
    /// The log that shows a verdict reads every event as 0, whatever value is awaited.
    WitnessReadsZero,
    /// An event whose capture is no reading keeps what the row's own masks say of it.
    OwnMasksUnderNoReading,
    /// Ranges that don't rise are searched by halves as though they did.
    AnyListByHalves,
}

/// Every misreading.
#[cfg(feature = "misreadings")]
pub const ALL: &[Misreading] = &[
    Misreading::UnrecordedEventIsZero,
    Misreading::IpPastExit,
    Misreading::ZeroFilledHalves,
    Misreading::OperandsOf5fOnFamily1,
    Misreading::SwappedRefusalOrder,
    Misreading::SwappedJobRefusals,
    Misreading::UnfinishedWaitCountedWhole,
    Misreading::HighLevelExcluded,
    Misreading::PokeOutsideRangeAtLast,
    Misreading::AbortHangs,
    Misreading::WaitMeasuredByLength,
    Misreading::KnownReadingChanged,
    Misreading::WitnessReadsZero,
    Misreading::OwnMasksUnderNoReading,
    Misreading::AnyListByHalves,
];

#[cfg(feature = "misreadings")]
impl Misreading {
    /// A few words for a message.
    pub fn name(self) -> &'static str {
        match self {
            Misreading::UnrecordedEventIsZero => "unrecorded event is 0",
            Misreading::IpPastExit => "IP past exit",
            Misreading::ZeroFilledHalves => "halves filled with zeros",
            Misreading::OperandsOf5fOnFamily1 => "operands of 5f on family 1",
            Misreading::SwappedRefusalOrder => "writer's 13 before 12",
            Misreading::SwappedJobRefusals => "job's 32 before 24",
            Misreading::UnfinishedWaitCountedWhole => "unfinished wait counted whole",
            Misreading::HighLevelExcluded => "high level of a normal gate excluded",
            Misreading::PokeOutsideRangeAtLast => "last address outside its range",
            Misreading::AbortHangs => "abort hangs",
            Misreading::WaitMeasuredByLength => "a wait measured by its length",
            Misreading::KnownReadingChanged => "a known reading changed",
            Misreading::WitnessReadsZero => "a witness reads every event as 0",
            Misreading::OwnMasksUnderNoReading => "own masks kept where a capture is no reading",
            Misreading::AnyListByHalves => "any list of ranges searched by halves",
        }
    }
}

/// What stands for no misreading at all.
#[cfg(feature = "misreadings")]
const NONE: u8 = u8::MAX;

#[cfg(feature = "misreadings")]
static IN_FORCE: AtomicU8 = AtomicU8::new(NONE);

/// Sets the one misreading in force, for all threads of the process; none is at the start.
#[cfg(feature = "misreadings")]
pub fn misread(which: Option<Misreading>) {
    let number = which.map_or(NONE, |which| which as u8);
    IN_FORCE.store(number, Ordering::SeqCst);
}

/// Whether the rule at hand is to be misread.
#[cfg(feature = "misreadings")]
pub(crate) fn in_force(which: Misreading) -> bool {
    IN_FORCE.load(Ordering::SeqCst) == which as u8
}

/// Never, so that a build without the switch keeps nothing of the misreadings.
#[cfg(not(feature = "misreadings"))]
#[inline(always)]
pub(crate) const fn in_force(_: Misreading) -> bool {
    false
}
