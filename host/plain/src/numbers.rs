//! The two functions on plain numbers.

#[link(name = "wheel_timers", kind = "static")]
extern "C" {
    fn wheel_place(reading: u64, deadline: u64) -> u64;
}

#[link(name = "sketch", kind = "static")]
extern "C" {
    #[link_name = "word_index"]
    fn sketch_word_index(hash: u64, depth: u64, mask: u64) -> u64;
}

/// A bucket of the wheel: a level from 0 to 4, and the bucket's index in that level.
#[derive(Clone, Copy, Debug, PartialEq, Eq, PartialOrd, Ord, Hash)]
pub struct Place {
    pub level: u8,
    pub index: u8,
}

/// Where the wheel places a deadline at a reading, both in nanoseconds since the origin.
///
/// ```text
/// place(0, 1 << 30) == Place { level: 0, index: 1 }
/// ```
pub fn place(reading: u64, deadline: u64) -> Place {
    // SAFETY: proved for every pair of numbers; nothing is read or written through a pointer.
    let number = unsafe { wheel_place(reading, deadline) };
    Place {
        level: (number / 64) as u8,
        index: (number % 64) as u8,
    }
}

/// What the sketch's function answers where there is no such depth or table.
const NO_WORD: u64 = 65_536;

/// The word of a hash at a depth, in a table of `mask + 1` words; `None` where the depth is above 3 or `mask + 1` is
/// not a power of two up to 65,536.
pub fn word_index(hash: u64, depth: u64, mask: u64) -> Option<u64> {
    // SAFETY: as above.
    match unsafe { sketch_word_index(hash, depth, mask) } {
        NO_WORD => None,
        word => Some(word),
    }
}
