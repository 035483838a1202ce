//! The wheel: the Rust's buckets and its advance decide every answer. Slots, serials, the free chain and the recorded
//! lengths are the port's additions: a timer's slot and serial ride on its `DeqNodes`, the rest is kept beside.

use crate::common::concurrent::entry_info::EntryInfo;
use crate::common::concurrent::{DeqNodes, Freed};
use crate::common::deque::{DeqNode, Link};
use crate::common::parking_lot::Mutex;
use crate::common::time::Instant;
use crate::common::timer_wheel::{Advance, ReschedulingResult, TimerEvent, TimerNode, TimerPointer, TimerWheel};
use crate::lines::{generation, listed, number, ok, or_none, refused, Digest, Dump, Field, Module, Text};
use std::cell::{Cell, RefCell};
use std::marker::PhantomData;
use std::rc::Rc;

const BUCKETS: usize = 165;
const FIRST: [usize; 5] = [0, 64, 128, 160, 164];

type Key = usize;
type Timer = TimerNode<Key>;

/// A node record as the port has it.
#[derive(Clone, Copy, Default)]
struct Record {
    next: Option<usize>,
    prev: Option<usize>,
    bucket: Option<usize>,
    entry: u64,
    generation: u32,
    serial: u64,
}

/// What lies behind a handle.
#[derive(Clone, Copy)]
struct Armed {
    node: TimerPointer<Key>,
    serial: u64,
}

struct Lent {
    advance: Option<Advance<Key>>,
    wheel: *mut TimerWheel<Key>,
    entries: Vec<Rc<EntryInfo<Key>>>,
    slots: Vec<Option<Armed>>,
    /// Node records while no wheel is enabled over them.
    resting: Vec<Record>,
    freed: Freed,
    serial: u64,
}

#[derive(Default)]
pub struct Wheel {
    lent: Option<Lent>,
    poked: bool,
}

impl Drop for Lent {
    fn drop(&mut self) {
        self.advance = None;
        drop(unsafe { Box::from_raw(self.wheel) });
    }
}

fn new_wheel() -> *mut TimerWheel<Key> {
    Box::into_raw(Box::new(TimerWheel::new(Instant(0))))
}

/// Slot and serial of a timer that is no sentinel.
fn handle(timer: &Timer) -> (Option<usize>, u64) {
    match timer {
        TimerNode::Sentinel => (None, 0),
        TimerNode::Entry { deq_nodes, .. } => {
            let nodes = deq_nodes.lock();
            (nodes.slot, nodes.serial)
        }
    }
}

/// The slot of a node in a bucket.
fn slot_in(bucket: usize, link: Link<Timer>) -> Option<usize> {
    link.and_then(|node| {
        let timer = unsafe { &node.as_ref().element };
        if timer.sentinel() {
            Some(bucket)
        } else {
            handle(timer).0
        }
    })
}

impl Lent {
    fn new(nodes: usize, entries: usize) -> Self {
        let entry = |key| EntryInfo { key, deadline: Cell::new(None), generation: Cell::new(0) };
        let zeros = Record { next: Some(0), prev: Some(0), bucket: Some(0), ..Record::default() };
        Self {
            advance: None,
            wheel: new_wheel(),
            entries: (0..entries).map(|key| Rc::new(entry(key))).collect(),
            slots: vec![None; nodes],
            resting: vec![zeros; nodes],
            freed: Freed::default(),
            serial: 0,
        }
    }

    fn wheel(&self) -> &TimerWheel<Key> {
        unsafe { &*self.wheel }
    }

    fn wheel_mut(&mut self) -> &mut TimerWheel<Key> {
        unsafe { &mut *self.wheel }
    }

    fn create(&mut self, serial: u64) -> String {
        self.resting = self.records();
        self.advance = None;
        drop(unsafe { Box::from_raw(self.wheel) });
        self.wheel = new_wheel();
        self.slots.fill(None);
        self.freed = Freed::default();
        self.serial = serial;
        ok()
    }

    fn enable(&mut self) -> String {
        if self.wheel().is_enabled() {
            return refused(2);
        }
        if !(166..=4096).contains(&self.slots.len()) || !(1..=4096).contains(&self.entries.len()) {
            return refused(3);
        }
        self.wheel_mut().enable();
        self.freed = Rc::new(RefCell::new((BUCKETS..self.slots.len()).rev().collect()));
        for entry in &self.entries {
            entry.deadline.set(None);
            entry.generation.set(0);
        }
        ok()
    }

    /// Refusals 1, 4 (never here), 5 or 6.
    fn standing(&self, word: &str) -> Option<String> {
        let open = self.advance.is_some();
        if !self.wheel().is_enabled() {
            return Some(refused(1));
        }
        match word {
            "armed" => None,
            "pull" | "abandon" => (!open).then(|| refused(6)),
            _ => open.then(|| refused(5)),
        }
    }

    fn entry(&self, entry: u64) -> Option<&Rc<EntryInfo<Key>>> {
        self.entries.get(usize::try_from(entry).ok()?)
    }

    fn set(&mut self, entry: u64, deadline: Option<u64>, generation: u32) -> String {
        let Some(entry) = self.entry(entry) else { return refused(7) };
        entry.deadline.set(deadline.map(Instant));
        entry.generation.set(generation);
        ok()
    }

    /// The Rust's schedule with a node that would stand in this slot.
    fn schedule_as(
        &mut self,
        entry: Rc<EntryInfo<Key>>,
        slot: Option<usize>,
        generation: u32,
    ) -> Option<TimerPointer<Key>> {
        let nodes = DeqNodes { slot, serial: self.serial, freed: self.freed.clone(), keys: PhantomData };
        self.wheel_mut().schedule(entry, Rc::new(Mutex::new(nodes)), generation)
    }

    fn schedule(&mut self, entry: u64, generation: u32) -> String {
        let Some(entry) = self.entry(entry).cloned() else { return refused(7) };
        if entry.generation.get() != generation || entry.deadline.get().is_none() {
            let other = entry.generation.get() != generation;
            let armed = self.schedule_as(entry, None, generation);
            assert!(armed.is_none(), "the Rust armed where the port refuses");
            return refused(if other { 8 } else { 9 });
        }
        let Some(slot) = self.freed.borrow().last().copied() else { return refused(10) };
        if self.serial == u64::MAX {
            return refused(11);
        }
        self.freed.borrow_mut().pop();
        let serial = self.serial;
        let node = self.schedule_as(entry, Some(slot), generation);
        self.slots[slot] = Some(Armed { node: node.expect("the Rust refused where the port arms"), serial });
        self.serial += 1;
        format!("armed {slot} {serial}")
    }

    fn behind(&self, slot: u64, serial: u64) -> Option<TimerPointer<Key>> {
        let armed = (*self.slots.get(usize::try_from(slot).ok()?)?)?;
        (armed.serial == serial).then_some(armed.node)
    }

    fn reschedule(&mut self, slot: u64, serial: u64, generation: u32) -> String {
        let Some(node) = self.behind(slot, serial) else { return refused(12) };
        match self.wheel_mut().reschedule(node, generation) {
            None => refused(13),
            Some(ReschedulingResult::Rescheduled) => "rescheduled".to_string(),
            Some(ReschedulingResult::Removed(node)) => {
                drop(node);
                self.slots[slot as usize] = None;
                "removed".to_string()
            }
        }
    }

    fn deschedule(&mut self, slot: u64, serial: u64, generation: u32) -> String {
        let Some(node) = self.behind(slot, serial) else { return refused(12) };
        if !self.wheel_mut().deschedule(node, generation) {
            return refused(13);
        }
        self.slots[slot as usize] = None;
        ok()
    }

    fn start(&mut self, reading: u64) -> String {
        self.advance = Some(unsafe { Advance::start(self.wheel, reading) });
        ok()
    }

    fn pull(&mut self) -> String {
        let before = self.freed.borrow().len();
        let event = self.advance.as_mut().and_then(Advance::pull);
        let answer = match event {
            None => {
                self.advance = None;
                "end".to_string()
            }
            Some(TimerEvent::Expired(node)) => self.expired(node),
            Some(TimerEvent::Rescheduled(entry)) => self.moved(&entry),
            Some(TimerEvent::Descheduled) => "descheduled".to_string(),
        };
        for slot in &self.freed.borrow()[before..] {
            self.slots[*slot] = None;
        }
        answer
    }

    fn expired(&self, node: Box<DeqNode<Timer>>) -> String {
        let entry = node.element.entry_info();
        let deadline = entry.deadline.get().map_or(0, |time| time.0);
        format!("expired {} {} {deadline}", entry.key, handle(&node.element).1)
    }

    /// The timer that was placed anew stands at the back of the bucket of its deadline.
    fn moved(&self, entry: &Rc<EntryInfo<Key>>) -> String {
        let deadline = entry.deadline.get().expect("a timer with a deadline was moved");
        let (level, index) = self.wheel().place(deadline);
        let timer = &self.wheel().bucket_at(level, index).peek_back().expect("it was put there").element;
        assert!(Rc::ptr_eq(timer.entry_info(), entry), "another timer stands at the back");
        let (level, index) = timer.at().expect("an armed timer has a position");
        format!("rescheduled {} {} {}", entry.key, handle(timer).1, level * 64 + index)
    }

    /// The armed timers in the Rust's buckets.
    fn timers(&self) -> impl Iterator<Item = &Timer> {
        let nodes = self.wheel().buckets().flat_map(|bucket| bucket.members());
        nodes.map(|node| unsafe { &(*node.as_ptr()).element }).filter(|timer| !timer.sentinel())
    }

    fn due(&self) -> String {
        let least = self.timers().filter_map(|timer| timer.entry_info().deadline.get()).min();
        least.map_or("due -".to_string(), |time| format!("due {}", time.0))
    }

    fn bucket(&self, bucket: u64) -> Option<String> {
        let bucket = usize::try_from(bucket).ok().filter(|b| *b < BUCKETS)?;
        let deque = self.wheel().buckets().nth(bucket);
        let slots: Vec<usize> =
            deque.map_or(Vec::new(), |d| d.members().filter_map(|n| slot_in(bucket, Some(n))).collect());
        Some(listed("bucket", &slots))
    }

    /// The node records: from the Rust's links where a wheel is enabled.
    fn records(&self) -> Vec<Record> {
        if !self.wheel().is_enabled() {
            return self.resting.clone();
        }
        let mut records = vec![Record::default(); self.slots.len()];
        for (bucket, deque) in self.wheel().buckets().enumerate() {
            for node in deque.members() {
                let node = unsafe { node.as_ref() };
                let slot = if node.element.sentinel() { Some(bucket) } else { handle(&node.element).0 };
                records[slot.expect("each node has a slot")] = Self::record(bucket, node);
            }
        }
        for pair in self.freed.borrow().windows(2) {
            records[pair[1]].next = Some(pair[0]);
        }
        records
    }

    fn record(bucket: usize, node: &DeqNode<Timer>) -> Record {
        let (next, prev) = node.links();
        let timer = &node.element;
        let links = Record {
            next: slot_in(bucket, next),
            prev: slot_in(bucket, prev),
            bucket: Some(bucket),
            ..Record::default()
        };
        if timer.sentinel() {
            return links;
        }
        let at = timer.at().map(|(level, index)| FIRST[level] + index);
        assert!(at == Some(bucket), "a timer's position is not its bucket");
        Record {
            entry: timer.entry_info().key as u64,
            generation: timer.expiry_gen(),
            serial: handle(timer).1,
            ..links
        }
    }

    fn clock(&self, out: &mut dyn Dump) {
        let enabled = self.wheel().is_enabled();
        let (previous, level, step) = self.advance.as_ref().map_or((0, 0, 0), Advance::stands);
        let (nodes, entries) = if enabled { (self.slots.len(), self.entries.len()) } else { (0, 0) };
        let numbers = [
            u64::from(enabled),
            self.wheel().reading(),
            self.serial,
            u64::from(self.advance.is_some()),
            previous,
            level as u64,
            step,
            nodes as u64,
            entries as u64,
        ];
        let mut fields: Vec<Field> = numbers.into_iter().map(Field::Is).collect();
        fields.push(Field::link(self.freed.borrow().last().copied()));
        out.line("clock", &fields);
    }

    fn dump(&self, out: &mut dyn Dump) {
        self.clock(out);
        let mut buckets = self.wheel().buckets();
        for bucket in 0..BUCKETS {
            let (head, tail) = buckets.next().map_or((None, None), |deque| deque.ends());
            let [head, tail] = [head, tail].map(|link| Field::link(slot_in(bucket, link)));
            out.line("bucket", &[Field::Is(bucket as u64), head, tail]);
        }
        for (at, r) in self.records().iter().enumerate() {
            let [next, prev, bucket] = [r.next, r.prev, r.bucket].map(Field::link);
            out.line(
                "node",
                &[
                    Field::Is(at as u64),
                    next,
                    prev,
                    bucket,
                    Field::Is(r.entry),
                    Field::Is(r.generation.into()),
                    Field::Is(r.serial),
                ],
            );
        }
        for (at, entry) in self.entries.iter().enumerate() {
            let deadline = Field::Deadline(entry.deadline.get().map(|time| time.0));
            out.line("entry", &[Field::Is(at as u64), deadline, Field::Is(entry.generation.get().into())]);
        }
    }

    fn shown(&self, word: &str) -> String {
        if word == "digest" {
            let mut digest = Digest::default();
            self.dump(&mut digest);
            return digest.answer();
        }
        let mut text = Text::default();
        match word {
            "clock" => self.clock(&mut text),
            _ => self.dump(&mut text),
        }
        text.answer()
    }
}

/// A well-formed call of 01, its fields read.
enum Call {
    Set(u64, Option<u64>, u32),
    Schedule(u64, u32),
    Reschedule(u64, u64, u32),
    Deschedule(u64, u64, u32),
    Start(u64),
    Pull,
    Abandon,
    Armed,
    Due,
}

fn call_of(fields: &[&str]) -> Option<Call> {
    Some(match fields {
        ["set", entry, deadline, g] => Call::Set(number(entry)?, or_none(deadline)?, generation(g)?),
        ["schedule", entry, g] => Call::Schedule(number(entry)?, generation(g)?),
        ["reschedule", slot, serial, g] => Call::Reschedule(number(slot)?, number(serial)?, generation(g)?),
        ["deschedule", slot, serial, g] => Call::Deschedule(number(slot)?, number(serial)?, generation(g)?),
        ["start", reading] => Call::Start(number(reading)?),
        ["pull"] => Call::Pull,
        ["abandon"] => Call::Abandon,
        ["armed"] => Call::Armed,
        ["due"] => Call::Due,
        _ => return None,
    })
}

impl Lent {
    fn answer(&mut self, call: Call) -> String {
        match call {
            Call::Set(entry, deadline, generation) => self.set(entry, deadline, generation),
            Call::Schedule(entry, generation) => self.schedule(entry, generation),
            Call::Reschedule(slot, serial, generation) => self.reschedule(slot, serial, generation),
            Call::Deschedule(slot, serial, generation) => self.deschedule(slot, serial, generation),
            Call::Start(reading) => self.start(reading),
            Call::Pull => self.pull(),
            Call::Abandon => {
                self.advance = None;
                ok()
            }
            Call::Armed => format!("armed {}", self.timers().count()),
            Call::Due => self.due(),
        }
    }
}

fn lend(nodes: &str, entries: &str) -> Option<Lent> {
    let [nodes, entries] = [number(nodes)?, number(entries)?];
    (nodes <= 4100 && entries <= 4100).then(|| Lent::new(nodes as usize, entries as usize))
}

impl Module for Wheel {
    fn call(&mut self, fields: &[&str]) -> Option<String> {
        if let ["place", reading, deadline] = fields {
            let (level, index) = TimerWheel::<Key>::place_at(number(reading)?, number(deadline)?);
            return Some(format!("place {}", level * 64 + index));
        }
        if let ["lend", nodes, entries] = fields {
            self.lent = Some(lend(nodes, entries)?);
            self.poked = false;
            return Some(ok());
        }
        let lent = self.lent.as_mut()?;
        if fields[0].starts_with("poke-") || self.poked {
            self.poked = true;
            return Some("unsupported".to_string());
        }
        match fields {
            ["create", serial] => Some(lent.create(number(serial)?)),
            ["enable"] => Some(lent.enable()),
            ["bucket", bucket] => lent.bucket(number(bucket)?),
            [word @ ("clock" | "dump" | "digest")] => Some(lent.shown(word)),
            _ => {
                let call = call_of(fields)?;
                Some(lent.standing(fields[0]).unwrap_or_else(|| lent.answer(call)))
            }
        }
    }
}
