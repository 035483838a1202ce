//! The wheel through the host: alarms fire in time and in order, what is wrong is refused by number, and a refused call
//! changes nothing.
use juopmorin::{Entry, Event, Handle, Refusal, Rescheduled, Wheel};

const TICK: u64 = 1 << 30;

fn due(deadline: u64) -> Entry {
    Entry { deadline: Some(deadline), generation: 0 }
}

/// An enabled wheel with so many timers' room and entries.
fn wheel(timers: usize, entries: usize) -> Wheel {
    let mut wheel = Wheel::new(165 + timers, entries, 7);
    wheel.enable().expect("the lengths are in range");
    wheel
}

fn arm(wheel: &mut Wheel, entry: usize, deadline: u64) -> Handle {
    wheel.set_entry(entry, due(deadline)).expect("there is such an entry");
    wheel.schedule(entry, 0).expect("there is room")
}

/// The entries that an advance hands out, in order.
fn advance(wheel: &mut Wheel, reading: u64) -> Vec<usize> {
    wheel.start(reading).expect("no advance is open");
    let mut expired = Vec::new();
    while let Some(event) = wheel.pull().expect("an advance is open") {
        if let Event::Expired { entry, .. } = event {
            expired.push(entry);
        }
    }
    expired
}

#[test]
fn a_deadline_fires_when_its_tick_is_left() {
    let mut w = wheel(4, 2);
    assert_eq!(arm(&mut w, 0, 10), Handle { slot: 165, serial: 7 });
    assert_eq!(w.next_due(), Ok(Some(10)));
    assert_eq!(advance(&mut w, TICK - 1), []);
    assert_eq!(advance(&mut w, TICK), [0]);
    assert_eq!(w.armed_count(), Ok(0));
    assert_eq!(w.next_due(), Ok(None));
}

#[test]
fn an_abandoned_advance_keeps_what_was_pulled() {
    let mut w = wheel(8, 4);
    for (entry, deadline) in [(0, 10), (1, 20), (2, 30)] {
        arm(&mut w, entry, deadline);
    }
    w.start(TICK).unwrap();
    assert_eq!(w.pull(), Ok(Some(Event::Expired { entry: 0, serial: 7, deadline: 10 })));
    w.abandon().unwrap();
    assert_eq!(w.clock.reading, 0);
    arm(&mut w, 3, 40);
    assert_eq!(advance(&mut w, TICK), [3, 1, 2]);
}

#[test]
fn a_far_deadline_comes_down_a_level() {
    let mut w = wheel(4, 1);
    arm(&mut w, 0, (1 << 36) + 5 * TICK);
    w.start(1 << 36).unwrap();
    assert_eq!(w.pull(), Ok(Some(Event::Rescheduled { entry: 0, serial: 7, place: 5 })));
    assert_eq!(w.pull(), Ok(None));
    assert_eq!(advance(&mut w, (1 << 36) + 6 * TICK), [0]);
}

#[test]
fn reschedule_goes_by_the_deadline_now_held() {
    let mut w = wheel(4, 1);
    let timer = arm(&mut w, 0, 10);
    w.set_entry(0, due(3 * TICK)).unwrap();
    assert_eq!(w.reschedule(timer, 0), Ok(Rescheduled::Moved));
    assert_eq!(advance(&mut w, 2 * TICK), []);
    w.set_entry(0, Entry { deadline: None, generation: 1 }).unwrap();
    assert_eq!(w.reschedule(timer, 0), Ok(Rescheduled::Removed));
    assert_eq!(w.reschedule(timer, 0), Err(Refusal(12)));
}

#[test]
fn a_refused_call_changes_nothing() {
    let mut w = wheel(1, 2);
    let timer = arm(&mut w, 0, 10);
    w.set_entry(1, due(20)).unwrap();
    let before = w.clone();
    assert_eq!(w.enable(), Err(Refusal(2)));
    assert_eq!(w.set_entry(2, due(1)), Err(Refusal(7)));
    assert_eq!(w.schedule(1, 5), Err(Refusal(8)));
    assert_eq!(w.schedule(1, 0), Err(Refusal(10)));
    assert_eq!(w.deschedule(Handle { serial: 8, ..timer }, 0), Err(Refusal(12)));
    assert_eq!(w.deschedule(timer, 1), Err(Refusal(13)));
    assert_eq!(w.pull(), Err(Refusal(6)));
    assert_eq!(w.abandon(), Err(Refusal(6)));
    assert_eq!(w, before);
    w.start(TICK).unwrap();
    let open = w.clone();
    assert_eq!(w.start(TICK), Err(Refusal(5)));
    assert_eq!(w.next_due(), Err(Refusal(5)));
    assert_eq!(w.armed_count(), Ok(1));
    assert_eq!(w, open);
}

#[test]
fn damage_is_refused() {
    let mut w = wheel(2, 1);
    arm(&mut w, 0, 10);
    w.nodes[165].prev = 166;
    let before = w.clone();
    assert_eq!(w.armed_count(), Err(Refusal(4)));
    assert_eq!(w.start(TICK), Err(Refusal(4)));
    assert_eq!(w, before);
}

#[test]
fn lengths_of_any_kind_are_answered() {
    for (nodes, entries, answer) in [(165, 1, Err(Refusal(3))), (166, 0, Err(Refusal(3))), (4_097, 1, Err(Refusal(3))), (0, 0, Err(Refusal(3))), (4_096, 4_096, Ok(()))] {
        let mut w = Wheel::new(nodes, entries, 0);
        assert_eq!(w.armed_count(), Err(Refusal(1)));
        assert_eq!(w.enable(), answer);
    }
    let mut w = wheel(10, 1);
    w.nodes.truncate(170);
    assert_eq!(w.armed_count(), Err(Refusal(4)));
    w.nodes.resize(5_000, juopmorin::Node::default());
    assert_eq!(w.armed_count(), Err(Refusal(4)));
}

#[test]
fn a_call_fits_a_thread_of_two_mebibytes() {
    let run = || {
        let mut w = wheel(4_096 - 165, 16);
        for entry in 0..16 {
            arm(&mut w, entry, entry as u64 * TICK);
        }
        advance(&mut w, 20 * TICK).len()
    };
    let thread = std::thread::Builder::new().stack_size(2 << 20).spawn(run).expect("a thread");
    assert_eq!(thread.join().expect("no overflow"), 16);
}
