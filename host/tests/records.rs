//! Records taken out, changed and put together again: damage is refused 4, whatever it is, and changes nothing.

use juopmorin::time::TICK_NS;
use juopmorin::{Entry, Handle, Node, Records, Refusal, Wheel};

/// The records of a wheel with room for ten timers, one of which is armed.
fn records() -> Records {
    let mut wheel = Wheel::with_room(10, 2).unwrap();
    wheel.set_entry(0, Entry::due(10)).unwrap();
    wheel.schedule(0, 0).unwrap();
    wheel.into_records()
}

/// Every call but create and enable is refused so, and changes nothing.
fn every_call_is_refused(mut wheel: Wheel, refusal: Refusal) {
    let before = wheel.clone();
    let timer = Handle { slot: 165, serial: 0 };
    assert_eq!(wheel.set_entry(0, Entry::none()), Err(refusal));
    assert_eq!(wheel.schedule(0, 0), Err(refusal));
    assert_eq!(wheel.reschedule(timer, 0), Err(refusal));
    assert_eq!(wheel.deschedule(timer, 0), Err(refusal));
    assert_eq!(wheel.advance(TICK_NS).map(|advance| advance.finish()), Err(refusal));
    assert_eq!(wheel.start(TICK_NS), Err(refusal));
    assert_eq!(wheel.pull(), Err(refusal));
    assert_eq!(wheel.abandon(), Err(refusal));
    assert_eq!(wheel.armed_count(), Err(refusal));
    assert_eq!(wheel.next_due(), Err(refusal));
    assert_eq!(wheel, before);
}

#[test]
fn records_go_out_and_in_unchanged() {
    let mut wheel = Wheel::from_records(records());
    assert_eq!(wheel.records(), &records());
    assert_eq!(wheel.advance(TICK_NS).unwrap().count(), 1);
}

#[test]
fn damage_is_refused() {
    let damages: [fn(&mut Records); 12] = [
        |r| r.nodes[165].prev = 166,
        |r| r.nodes[165].next = usize::MAX,
        |r| r.nodes[165].entry = 2,
        |r| r.nodes[165].serial = 1,
        |r| r.nodes[166].next = 166,
        |r| r.heads[3] = 4,
        |r| r.tails[0] = 0,
        |r| r.clock.free = 165,
        |r| r.clock.nodes += 1,
        |r| r.nodes.truncate(170),
        |r| r.nodes.resize(5_000, Node::default()),
        |r| r.generation.clear(),
    ];
    for damage in damages {
        let mut records = records();
        damage(&mut records);
        every_call_is_refused(Wheel::from_records(records), Refusal::NotSound);
    }
}

#[test]
fn a_wheel_that_is_not_enabled_is_refused_before_its_damage() {
    let mut records = records();
    records.clock.enabled = false;
    records.heads[3] = 4;
    every_call_is_refused(Wheel::from_records(records), Refusal::NotEnabled);
}

#[test]
fn getters_answer_for_records_of_any_length() {
    let mut records = records();
    records.nodes.clear();
    records.generation.truncate(1);
    let wheel = Wheel::from_records(records);
    assert_eq!((wheel.capacity(), wheel.entries()), (0, 2));
    assert_eq!((wheel.entry(0), wheel.entry(1)), (Some(Entry::due(10)), None));
    assert_eq!(
        format!("{wheel:?}"),
        "Wheel { reading: 0, open: false, capacity: 0, entries: 2, armed: Err(NotSound) }"
    );
}
