//! The wheel through the host: alarms fire in time and in order, what is wrong is refused, and a refused call changes
//! nothing.

use juopmorin::time::TICK_NS;
use juopmorin::{Entry, Event, Handle, Outcome, Place, Refusal, Wheel};

/// An enabled wheel with so many timers' room and entries, whose serials start at 7.
fn wheel(timers: usize, entries: usize) -> Wheel {
    let mut wheel = Wheel::new(165 + timers, entries, 7);
    wheel.enable().expect("the lengths are in range");
    wheel
}

fn arm(wheel: &mut Wheel, entry: usize, deadline: u64) -> Handle {
    wheel.set_entry(entry, Entry::due(deadline)).expect("there is such an entry");
    wheel.schedule(entry, 0).expect("there is room")
}

/// The entries that an advance hands out, in order, by the raw calls.
fn expired(wheel: &mut Wheel, reading: u64) -> Vec<usize> {
    wheel.start(reading).expect("no advance is open");
    let mut expired = Vec::new();
    while let Some(event) = wheel.pull().expect("an advance is open") {
        if let Event::Expired { entry, .. } = event {
            expired.push(entry);
        }
    }
    expired
}

#[test]
fn a_deadline_fires_when_its_tick_is_left() {
    let mut w = wheel(4, 2);
    assert_eq!(arm(&mut w, 0, 10), Handle { slot: 165, serial: 7 });
    assert_eq!(w.next_due(), Ok(Some(10)));
    assert_eq!(expired(&mut w, TICK_NS - 1), []);
    assert_eq!(expired(&mut w, TICK_NS), [0]);
    assert_eq!(w.armed_count(), Ok(0));
    assert_eq!(w.next_due(), Ok(None));
}

#[test]
fn a_deadline_in_an_earlier_tick_waits_up_to_a_lap() {
    let mut w = wheel(4, 1);
    assert_eq!(expired(&mut w, 5 * TICK_NS), []);
    arm(&mut w, 0, 2 * TICK_NS);
    assert_eq!(expired(&mut w, 65 * TICK_NS), []);
    assert_eq!(expired(&mut w, 66 * TICK_NS), [0]);
}

#[test]
fn an_abandoned_advance_keeps_what_was_pulled() {
    let mut w = wheel(8, 4);
    for (entry, deadline) in [(0, 10), (1, 20), (2, 30)] {
        arm(&mut w, entry, deadline);
    }
    w.start(TICK_NS).unwrap();
    assert_eq!(w.pull(), Ok(Some(Event::Expired { entry: 0, serial: 7, deadline: 10 })));
    w.abandon().unwrap();
    assert_eq!(w.reading(), 0);
    arm(&mut w, 3, 40);
    assert_eq!(expired(&mut w, TICK_NS), [3, 1, 2]);
}

#[test]
fn a_far_deadline_comes_down_a_level() {
    let mut w = wheel(4, 1);
    arm(&mut w, 0, (1 << 36) + 5 * TICK_NS);
    w.start(1 << 36).unwrap();
    let place = Place { level: 0, index: 5 };
    assert_eq!(w.pull(), Ok(Some(Event::Rescheduled { entry: 0, serial: 7, place })));
    assert_eq!(w.pull(), Ok(None));
    assert_eq!(expired(&mut w, (1 << 36) + 6 * TICK_NS), [0]);
}

#[test]
fn reschedule_goes_by_the_deadline_now_held() {
    let mut w = wheel(4, 1);
    let timer = arm(&mut w, 0, 10);
    w.set_entry(0, Entry::due(3 * TICK_NS)).unwrap();
    assert_eq!(w.reschedule(timer, 0), Ok(Outcome::Moved));
    assert_eq!(expired(&mut w, 2 * TICK_NS), []);
    w.set_entry(0, Entry { generation: 1, ..Entry::none() }).unwrap();
    assert_eq!(w.reschedule(timer, 0), Ok(Outcome::Removed));
    assert_eq!(w.reschedule(timer, 0), Err(Refusal::StaleHandle));
}

#[test]
fn a_refused_call_changes_nothing() {
    let mut w = wheel(1, 3);
    let timer = arm(&mut w, 0, 10);
    w.set_entry(1, Entry::due(20)).unwrap();
    let before = w.clone();
    assert_eq!(w.enable(), Err(Refusal::EnabledAlready));
    assert_eq!(w.set_entry(3, Entry::due(1)), Err(Refusal::NoSuchEntry));
    assert_eq!(w.schedule(1, 5), Err(Refusal::OtherGeneration));
    assert_eq!(w.schedule(2, 0), Err(Refusal::NoDeadline));
    assert_eq!(w.schedule(1, 0), Err(Refusal::NoFreeSlot));
    assert_eq!(w.deschedule(Handle { serial: 8, ..timer }, 0), Err(Refusal::StaleHandle));
    assert_eq!(w.deschedule(timer, 1), Err(Refusal::ArmedWithOtherGeneration));
    assert_eq!(w.pull(), Err(Refusal::NoAdvanceOpen));
    assert_eq!(w.abandon(), Err(Refusal::NoAdvanceOpen));
    assert_eq!(w, before);
    w.start(TICK_NS).unwrap();
    let open = w.clone();
    assert_eq!(w.start(TICK_NS), Err(Refusal::AdvanceOpen));
    assert_eq!(w.next_due(), Err(Refusal::AdvanceOpen));
    assert_eq!(w.armed_count(), Ok(1));
    assert_eq!(w, open);
}

#[test]
fn serials_are_used_up_at_the_last_number() {
    let mut w = Wheel::new(170, 1, u64::MAX - 1);
    w.enable().unwrap();
    assert_eq!(arm(&mut w, 0, 10).serial, u64::MAX - 1);
    assert_eq!(w.schedule(0, 0), Err(Refusal::SerialsUsedUp));
}

#[test]
fn lengths_of_any_kind_are_answered() {
    let refused = Err(Refusal::LengthsOutOfRange);
    let lengths = [
        (165, 1, refused),
        (166, 0, refused),
        (4_097, 1, refused),
        (166, 4_097, refused),
        (0, 0, refused),
        (4_096, 4_096, Ok(())),
    ];
    for (nodes, entries, answer) in lengths {
        let mut w = Wheel::new(nodes, entries, 0);
        assert_eq!(w.armed_count(), Err(Refusal::NotEnabled));
        assert_eq!(w.enable(), answer);
        assert_eq!(w.is_enabled(), answer.is_ok());
    }
}

#[test]
fn room_is_from_1_to_3_931_timers_and_1_to_4_096_entries() {
    for (timers, entries) in [(1, 1), (3_931, 4_096)] {
        let w = Wheel::with_room(timers, entries).expect("in range");
        assert_eq!((w.capacity(), w.entries(), w.armed_count()), (timers, entries, Ok(0)));
        assert!(w.is_enabled() && !w.is_open());
    }
    for (timers, entries) in [(0, 1), (1, 0), (3_932, 1), (1, 4_097), (usize::MAX, 1), (1, usize::MAX)] {
        assert_eq!(Wheel::with_room(timers, entries), Err(Refusal::LengthsOutOfRange));
    }
}

#[test]
fn as_many_timers_are_armed_as_there_is_room_for() {
    let mut w = Wheel::with_room(3, 1).unwrap();
    w.set_entry(0, Entry::due(10)).unwrap();
    for serial in 0..3 {
        assert_eq!(w.schedule(0, 0).map(|timer| timer.serial), Ok(serial));
    }
    assert_eq!(w.schedule(0, 0), Err(Refusal::NoFreeSlot));
}

#[test]
fn an_entry_is_as_it_was_set() {
    let mut w = wheel(1, 2);
    let set = Entry { deadline: Some(9), generation: 4 };
    w.set_entry(1, set).unwrap();
    assert_eq!((w.entry(0), w.entry(1), w.entry(2)), (Some(Entry::none()), Some(set), None));
    w.set_entry(1, Entry::none()).unwrap();
    assert_eq!(w.entry(1), Some(Entry::none()));
}

#[test]
fn debug_is_short() {
    let mut w = Wheel::with_room(3_931, 4_096).unwrap();
    arm(&mut w, 0, 10);
    w.start(5).unwrap();
    assert_eq!(format!("{w:?}"), "Wheel { reading: 5, open: true, capacity: 3931, entries: 4096, armed: Ok(1) }");
    w.create(0);
    assert!(format!("{w:?}").ends_with("armed: Err(NotEnabled) }"), "{w:?}");
}

#[test]
fn a_call_fits_a_thread_of_two_mebibytes() {
    let run = || {
        let mut w = wheel(4_096 - 165, 16);
        for entry in 0..16 {
            arm(&mut w, entry, entry as u64 * TICK_NS);
        }
        expired(&mut w, 20 * TICK_NS).len()
    };
    let thread = std::thread::Builder::new().stack_size(2 << 20).spawn(run).expect("a thread");
    assert_eq!(thread.join().expect("no overflow"), 16);
}
