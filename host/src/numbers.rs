//! The two functions on plain numbers.

use crate::ffi;

/// A bucket of the wheel.
#[derive(Clone, Copy, Debug, PartialEq, Eq, PartialOrd, Ord, Hash)]
pub struct Place {
    /// Its level, 0 to 4.
    pub level: u8,
    /// Its index in that level, 0 to 63.
    pub index: u8,
}

impl Place {
    /// The place of a number that the library gave: level x 64 + index.
    pub(crate) const fn numbered(number: u64) -> Self {
        Self { level: (number / 64) as u8, index: (number % 64) as u8 }
    }
}

/// Where the wheel places a deadline at a reading, both in nanoseconds since the origin.
///
/// ```
/// use juopmorin::{place, Place};
///
/// assert_eq!(place(0, 1 << 30), Place { level: 0, index: 1 });
/// assert_eq!(place(0, 1 << 36), Place { level: 1, index: 1 });
/// ```
#[must_use]
pub fn place(reading: u64, deadline: u64) -> Place {
    Place::numbered(ffi::place(reading, deadline))
}

/// What the library answers where there is no such depth or table.
const NO_WORD: u64 = 65_536;

/// The word of a hash at a depth, in a table of `mask + 1` words of a frequency sketch; `None` where the depth is above
/// 3 or `mask + 1` is not a power of two up to 65,536.
///
/// ```
/// use juopmorin::word_index;
///
/// assert!(word_index(12_345, 3, 1_023).is_some_and(|word| word < 1_024));
/// assert_eq!(word_index(12_345, 4, 1_023), None); // no such depth
/// assert_eq!(word_index(12_345, 3, 1_000), None); // no such table
/// ```
#[must_use]
pub fn word_index(hash: u64, depth: u64, mask: u64) -> Option<u64> {
    match ffi::word_index(hash, depth, mask) {
        NO_WORD => None,
        word => Some(word),
    }
}
