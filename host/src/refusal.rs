//! The refusals of the wheel, by number.

use std::error::Error;
use std::fmt;

/// Why a call was refused. A refused call changes nothing. Where several apply, the lowest number is given.
///
/// ```
/// use juopmorin::{Refusal, Wheel};
///
/// let refusal = Wheel::with_room(8, 4).and_then(|mut wheel| wheel.schedule(4, 0)).unwrap_err();
/// assert_eq!(refusal, Refusal::NoSuchEntry);
/// assert_eq!(refusal.number(), 7);
/// assert_eq!(refusal.to_string(), "refused 7: there is no such entry");
/// ```
#[derive(Clone, Copy, Debug, PartialEq, Eq, Hash)]
#[non_exhaustive]
#[repr(u8)]
pub enum Refusal {
    /// 1: the wheel is not enabled.
    NotEnabled = 1,
    /// 2: the wheel is enabled already.
    EnabledAlready = 2,
    /// 3: there are not 166 to 4,096 node records, which is room for 1 to 3,931 timers, or not 1 to 4,096 entries.
    LengthsOutOfRange = 3,
    /// 4: the records are not sound.
    NotSound = 4,
    /// 5: an advance is open.
    AdvanceOpen = 5,
    /// 6: no advance is open.
    NoAdvanceOpen = 6,
    /// 7: there is no such entry.
    NoSuchEntry = 7,
    /// 8: the entry's generation is another.
    OtherGeneration = 8,
    /// 9: the entry has no deadline.
    NoDeadline = 9,
    /// 10: as many timers are armed as there is room for.
    NoFreeSlot = 10,
    /// 11: the next serial is 2^64 - 1.
    SerialsUsedUp = 11,
    /// 12: no armed timer has the handle's slot and serial.
    StaleHandle = 12,
    /// 13: the timer was armed with another generation.
    ArmedWithOtherGeneration = 13,
}

/// Every refusal, in the order of the numbers, from 1 on.
const BY_NUMBER: [Refusal; 13] = [
    Refusal::NotEnabled,
    Refusal::EnabledAlready,
    Refusal::LengthsOutOfRange,
    Refusal::NotSound,
    Refusal::AdvanceOpen,
    Refusal::NoAdvanceOpen,
    Refusal::NoSuchEntry,
    Refusal::OtherGeneration,
    Refusal::NoDeadline,
    Refusal::NoFreeSlot,
    Refusal::SerialsUsedUp,
    Refusal::StaleHandle,
    Refusal::ArmedWithOtherGeneration,
];

impl Refusal {
    /// Its number in the rules, 1 to 13.
    #[must_use]
    pub const fn number(self) -> u8 {
        self as u8
    }

    /// The refusal of a number that the library gave.
    pub(crate) fn numbered(number: u64) -> Self {
        let at = usize::try_from(number).ok().and_then(|number| number.checked_sub(1));
        match at.and_then(|at| BY_NUMBER.get(at)) {
            Some(refusal) => *refusal,
            None => panic!(
                "the library refused with number {number}, which this crate does not know: the crate juopmorin and \
                 libjuopmorin.a are of different versions"
            ),
        }
    }

    fn when(self) -> &'static str {
        match self {
            Self::NotEnabled => "the wheel is not enabled",
            Self::EnabledAlready => "the wheel is enabled already",
            Self::LengthsOutOfRange => "the number of timers or of entries is out of range",
            Self::NotSound => "the records are not sound",
            Self::AdvanceOpen => "an advance is open",
            Self::NoAdvanceOpen => "no advance is open",
            Self::NoSuchEntry => "there is no such entry",
            Self::OtherGeneration => "the entry's generation is another",
            Self::NoDeadline => "the entry has no deadline",
            Self::NoFreeSlot => "there is no free slot",
            Self::SerialsUsedUp => "the serials are used up",
            Self::StaleHandle => "the handle is stale",
            Self::ArmedWithOtherGeneration => "the timer was armed with another generation",
        }
    }
}

impl fmt::Display for Refusal {
    fn fmt(&self, out: &mut fmt::Formatter<'_>) -> fmt::Result {
        write!(out, "refused {}: {}", self.number(), self.when())
    }
}

impl Error for Refusal {}

#[cfg(test)]
mod tests {
    use super::{Refusal, BY_NUMBER};

    #[test]
    fn every_number_from_1_to_13_is_its_refusals() {
        for number in 1..=13 {
            assert_eq!(u64::from(Refusal::numbered(number).number()), number);
        }
        assert_eq!(BY_NUMBER.len(), 13);
    }

    #[test]
    fn other_numbers_tell_of_different_versions() {
        for number in [0, 14, 256 + 4, u64::MAX] {
            let said = std::panic::catch_unwind(|| Refusal::numbered(number)).expect_err("no such refusal");
            let text = said.downcast_ref::<String>().expect("a message");
            assert!(text.contains(&number.to_string()) && text.contains("different versions"), "{text}");
        }
    }
}
