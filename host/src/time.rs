//! Ticks of the wheel, and its nanoseconds from and to [`Duration`].
//!
//! ```
//! use juopmorin::time::{nanoseconds, next_tick, since_origin, TICK};
//! use std::time::Duration;
//!
//! let reading = nanoseconds(Duration::from_secs(5)); // in the tick from 4 x 2^30 ns on
//! assert_eq!(next_tick(reading).map(since_origin), Some(TICK * 5));
//! ```

use std::time::Duration;

/// A tick in nanoseconds: 2^30, about 1.07 s.
pub const TICK_NS: u64 = 1 << 30;

/// A tick.
pub const TICK: Duration = Duration::from_nanos(TICK_NS);

/// A time since the origin in nanoseconds. A time of 2^64 ns or more, which is above 584 years, counts as 2^64 - 1.
///
/// ```
/// use juopmorin::time::nanoseconds;
/// use std::time::Duration;
///
/// assert_eq!(nanoseconds(Duration::from_millis(3)), 3_000_000);
/// assert_eq!(nanoseconds(Duration::MAX), u64::MAX);
/// ```
#[must_use]
pub fn nanoseconds(since_origin: Duration) -> u64 {
    u64::try_from(since_origin.as_nanos()).unwrap_or(u64::MAX)
}

/// So many nanoseconds as a time since the origin.
#[must_use]
pub const fn since_origin(nanoseconds: u64) -> Duration {
    Duration::from_nanos(nanoseconds)
}

/// The start of the tick after the reading's, or `None` in the last tick, after which no time is left below 2^64.
///
/// ```
/// use juopmorin::time::{next_tick, TICK_NS};
///
/// assert_eq!(next_tick(0), Some(TICK_NS));
/// assert_eq!(next_tick(TICK_NS), Some(2 * TICK_NS));
/// assert_eq!(next_tick(u64::MAX), None);
/// ```
#[must_use]
pub const fn next_tick(reading: u64) -> Option<u64> {
    (reading / TICK_NS + 1).checked_mul(TICK_NS)
}
