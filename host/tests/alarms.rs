//! Alarms by example: when they ring, what a key is good for, and what is refused.

use juopmorin::alarms::{Expired, Key};
use juopmorin::time::{since_origin, TICK};
use juopmorin::{Alarms, Refusal};
use std::time::Duration;

const NS: Duration = Duration::from_nanos(1);

fn alarms(room: usize) -> Alarms<&'static str> {
    Alarms::with_room(room).expect("in range")
}

fn arm(alarms: &mut Alarms<&'static str>, value: &'static str, deadline: Duration) -> Key {
    alarms.insert(value, deadline).expect("there is room")
}

/// The values that ring at an advance that is read to its end.
fn rung(alarms: &mut Alarms<&'static str>, now: Duration) -> Vec<&'static str> {
    alarms.advance(now).map(|alarm| alarm.value).collect()
}

#[test]
fn a_deadline_in_a_later_tick_rings_on_time() {
    let mut a = alarms(4);
    let deadline = TICK * 3 + NS * 5;
    let key = arm(&mut a, "bolus", deadline);
    assert_eq!(a.next_due(), Some(deadline));
    assert_eq!(rung(&mut a.clone(), deadline - NS), [""; 0]);
    let all: Vec<_> = a.advance(deadline).collect();
    assert_eq!(all, [Expired { key, deadline, value: "bolus" }]);
    assert_eq!((a.len(), a.reading(), a.next_due()), (0, deadline, None));
}

#[test]
fn a_deadline_in_the_readings_tick_rings_when_the_next_starts() {
    let mut a = alarms(4);
    arm(&mut a, "soon", NS * 10);
    assert_eq!(a.next_due(), Some(TICK));
    assert_eq!(rung(&mut a, TICK - NS), [""; 0]);
    assert_eq!(rung(&mut a, TICK), ["soon"]);
}

#[test]
fn a_deadline_before_the_reading_rings_when_the_next_tick_starts() {
    let mut a = alarms(4);
    assert_eq!(a.advance(TICK * 50).count(), 0);
    let key = arm(&mut a, "late", TICK * 2);
    assert_eq!(a.next_due(), Some(TICK * 51));
    let all: Vec<_> = a.advance(TICK * 51).collect();
    assert_eq!(all, [Expired { key, deadline: TICK * 2, value: "late" }]);
}

#[test]
fn reset_to_before_the_reading_rings_when_the_next_tick_starts() {
    let mut a = alarms(4);
    assert_eq!(a.advance(TICK * 50).count(), 0);
    let key = arm(&mut a, "far", TICK * 5_000);
    assert_eq!(a.reset(&key, TICK), Some(TICK * 5_000));
    assert_eq!(rung(&mut a, TICK * 51), ["far"]);
}

#[test]
fn an_advance_dropped_early_leaves_the_rest_to_the_next() {
    let mut a = alarms(4);
    for value in ["first", "second", "third"] {
        arm(&mut a, value, TICK);
    }
    assert_eq!(a.advance(TICK).next().map(|alarm| alarm.value), Some("first"));
    assert_eq!((a.reading(), a.len(), a.next_due()), (Duration::ZERO, 2, Some(TICK)));
    assert_eq!(rung(&mut a, TICK), ["second", "third"]);
}

#[test]
fn an_advance_that_is_forgotten_counts_as_dropped() {
    let mut a = alarms(4);
    let keys = ["first", "second", "third"].map(|value| arm(&mut a, value, TICK));
    let mut advance = a.advance(TICK);
    assert!(advance.next().is_some());
    std::mem::forget(advance);
    assert_eq!((a.reading(), a.len(), a.next_due()), (Duration::ZERO, 2, Some(TICK)));
    assert_eq!(a.remove(&keys[1]), Some("second"));
    assert_eq!(rung(&mut a, TICK), ["third"]);
}

#[test]
fn a_stale_key_is_good_for_nothing() {
    let mut a = alarms(1);
    let former = arm(&mut a, "former", TICK);
    assert_eq!(a.remove(&former), Some("former"));
    let present = arm(&mut a, "present", TICK); // in the same entry and the same slot
    assert_eq!(a.get(&former), None);
    assert_eq!((a.reset(&former, TICK * 2), a.remove(&former)), (None, None));
    assert_eq!((a.get(&present), a.next_due()), (Some(&"present"), Some(TICK)));
}

#[test]
fn a_full_room_hands_the_value_back() {
    let mut a = alarms(2);
    arm(&mut a, "first", TICK);
    arm(&mut a, "second", TICK);
    let error = a.insert("third", TICK).expect_err("there is no room");
    assert_eq!((error.value, error.refusal), ("third", Refusal::NoFreeSlot));
    assert_eq!(error.to_string(), "the alarm was not armed: refused 10: there is no free slot");
    assert_eq!(rung(&mut a, TICK), ["first", "second"]);
    arm(&mut a, "third", TICK * 2);
}

#[test]
fn clear_keeps_the_reading_and_makes_every_key_stale() {
    let mut a = alarms(3);
    let first = arm(&mut a, "first", TICK * 9);
    assert_eq!(a.advance(TICK * 2).count(), 0);
    a.clear();
    assert_eq!((a.len(), a.reading(), a.next_due(), a.get(&first)), (0, TICK * 2, None, None));
    let second = arm(&mut a, "second", TICK * 3);
    assert_ne!(first, second);
    assert_eq!(a.get(&first), None);
    assert_eq!(rung(&mut a, TICK * 3), ["second"]);
}

#[test]
fn room_is_from_1_to_3_931_alarms() {
    for room in [1, 3_931] {
        assert_eq!(alarms(room).capacity(), room);
    }
    for room in [0, 3_932, usize::MAX] {
        assert_eq!(Alarms::<()>::with_room(room).err(), Some(Refusal::LengthsOutOfRange));
    }
}

#[test]
fn times_beyond_64_bits_count_as_the_last() {
    let mut a = alarms(2);
    let beyond = since_origin(u64::MAX) * 3;
    let key = arm(&mut a, "last", beyond);
    assert_eq!(a.next_due(), Some(since_origin(u64::MAX)));
    let all: Vec<_> = a.advance(beyond * 2).collect();
    assert_eq!(all, [Expired { key, deadline: beyond, value: "last" }]);
    assert_eq!(a.reading(), since_origin(u64::MAX));
    arm(&mut a, "never", TICK);
    assert_eq!((a.next_due(), a.advance(Duration::MAX).count()), (None, 0)); // no tick comes after this one
}

#[test]
fn alarms_may_go_to_another_thread() {
    let mut a = alarms(2);
    arm(&mut a, "there", TICK);
    let rung = std::thread::spawn(move || rung(&mut a, TICK)).join().expect("no panic");
    assert_eq!(rung, ["there"]);
}

#[test]
fn debug_is_short() {
    let mut a = alarms(1_000);
    arm(&mut a, "one", TICK);
    assert_eq!(format!("{a:?}"), "Alarms { reading: 0ns, len: 1, capacity: 1000 }");
    assert!(format!("{:?}", a.advance(TICK)).len() < 150);
}
