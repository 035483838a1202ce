//! An open advance as an iterator: read to its end, dropped, finished, abandoned, forgotten.

use juopmorin::time::TICK_NS;
use juopmorin::{Advance, Entry, Event, Refusal, Wheel};

/// A wheel with three timers due in the first tick, whose entries are their serials.
fn wheel() -> Wheel {
    let mut wheel = Wheel::with_room(8, 4).unwrap();
    for entry in 0..3 {
        wheel.set_entry(entry, Entry::due(10)).unwrap();
        wheel.schedule(entry, 0).unwrap();
    }
    wheel
}

fn expired(entry: usize) -> Event {
    Event::Expired { entry, serial: entry as u64, deadline: 10 }
}

/// The wheel after an advance over a tick of which one event was read, and which then ended so.
fn after_one_event(end: fn(Advance<'_>)) -> Wheel {
    let mut wheel = wheel();
    let mut advance = wheel.advance(TICK_NS).unwrap();
    assert_eq!(advance.next(), Some(expired(0)));
    end(advance);
    wheel
}

#[test]
fn read_to_its_end_it_moves_the_reading() {
    let mut wheel = wheel();
    let events: Vec<Event> = wheel.advance(TICK_NS).unwrap().collect();
    assert_eq!(events, [expired(0), expired(1), expired(2)]);
    assert_eq!((wheel.reading(), wheel.is_open(), wheel.armed_count()), (TICK_NS, false, Ok(0)));
}

#[test]
fn after_its_end_it_answers_none_and_its_drop_changes_nothing() {
    let mut wheel = wheel();
    let mut advance = wheel.advance(TICK_NS).unwrap();
    assert_eq!(advance.by_ref().count(), 3);
    assert_eq!((advance.next(), advance.next()), (None, None));
    drop(advance);
    assert_eq!(wheel.reading(), TICK_NS);
}

#[test]
fn dropped_before_its_end_it_abandons() {
    let ends: [fn(Advance<'_>); 2] = [|advance| drop(advance), |advance| advance.abandon()];
    for end in ends {
        let mut wheel = after_one_event(end);
        assert_eq!((wheel.reading(), wheel.is_open(), wheel.armed_count()), (0, false, Ok(2)));
        assert_eq!(wheel.advance(TICK_NS).unwrap().finish(), [expired(1), expired(2)]);
    }
}

#[test]
fn dropped_between_its_last_event_and_its_end_it_abandons() {
    let mut wheel = wheel();
    assert_eq!(wheel.advance(TICK_NS).unwrap().take(3).count(), 3);
    assert_eq!((wheel.reading(), wheel.is_open(), wheel.armed_count()), (0, false, Ok(0)));
}

#[test]
fn finish_hands_out_what_was_left() {
    let wheel = after_one_event(|advance| assert_eq!(advance.finish(), [expired(1), expired(2)]));
    assert_eq!((wheel.reading(), wheel.is_open(), wheel.armed_count()), (TICK_NS, false, Ok(0)));
}

#[test]
fn it_is_refused_while_another_is_open() {
    let mut wheel = wheel();
    wheel.start(TICK_NS).unwrap();
    assert_eq!(wheel.advance(2 * TICK_NS).map(drop), Err(Refusal::AdvanceOpen));
    assert!(wheel.is_open());
    assert_eq!(wheel.pull(), Ok(Some(expired(0))));
}

#[test]
fn forgotten_it_stays_open_until_it_is_abandoned() {
    let mut wheel = after_one_event(|advance| std::mem::forget(advance));
    assert_eq!(wheel.advance(TICK_NS).map(drop), Err(Refusal::AdvanceOpen));
    assert_eq!(wheel.abandon(), Ok(()));
    assert_eq!(wheel.advance(TICK_NS).unwrap().count(), 2);
}

#[test]
fn to_an_earlier_time_it_hands_out_nothing() {
    let mut wheel = wheel();
    assert_eq!(wheel.advance(5).unwrap().count(), 0);
    assert_eq!(wheel.advance(3).unwrap().count(), 0);
    assert_eq!((wheel.reading(), wheel.armed_count()), (3, Ok(3)));
}
