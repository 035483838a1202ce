//! Nanoseconds from and to durations, and ticks.

use juopmorin::time::{nanoseconds, next_tick, since_origin, TICK, TICK_NS};
use std::time::Duration;

#[test]
fn a_tick_is_two_to_the_thirty_nanoseconds() {
    assert_eq!(TICK_NS, 1_073_741_824);
    assert_eq!(TICK.as_nanos(), 1_073_741_824);
}

#[test]
fn nanoseconds_go_there_and_back() {
    for number in [0, 1, 999_999_999, 1_000_000_000, TICK_NS, u64::MAX - 1, u64::MAX] {
        assert_eq!(nanoseconds(since_origin(number)), number);
        assert_eq!(since_origin(number).as_nanos(), u128::from(number));
    }
}

#[test]
fn a_time_beyond_64_bits_counts_as_the_last() {
    let last = Duration::from_nanos(u64::MAX);
    assert_eq!(nanoseconds(last - Duration::from_nanos(1)), u64::MAX - 1);
    for beyond in [last + Duration::from_nanos(1), last * 2, Duration::MAX] {
        assert_eq!(nanoseconds(beyond), u64::MAX);
    }
}

#[test]
fn the_next_tick_starts_after_the_reading() {
    let last_start = u64::MAX - (TICK_NS - 1);
    for (reading, next) in [
        (0, Some(TICK_NS)),
        (TICK_NS - 1, Some(TICK_NS)),
        (TICK_NS, Some(2 * TICK_NS)),
        (last_start - 1, Some(last_start)),
        (last_start, None),
        (u64::MAX, None),
    ] {
        assert_eq!(next_tick(reading), next, "{reading}");
    }
}
