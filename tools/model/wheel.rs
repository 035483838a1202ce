//! The wheel.

use crate::lines::{generation, listed, number, ok, or_none, refused, Digest, Dump, Field, Module, Text};
use crate::links::{link, Link, Links, Lists};

/// A level: the tick is 2^shift, so many buckets, used if deadline - reading is below 2^limit.
struct Level {
    shift: u32,
    count: u64,
    limit: Option<u32>,
    first: usize,
}

const LEVELS: [Level; 5] = [
    Level { shift: 30, count: 64, limit: Some(36), first: 0 },
    Level { shift: 36, count: 64, limit: Some(42), first: 64 },
    Level { shift: 42, count: 32, limit: Some(47), first: 128 },
    Level { shift: 47, count: 4, limit: Some(49), first: 160 },
    Level { shift: 49, count: 1, limit: None, first: 164 },
];

const BUCKETS: usize = 165;

/// Level and index of a deadline at a reading.
fn place(reading: u64, deadline: u64) -> (usize, usize) {
    let difference = if deadline < reading { 0 } else { deadline - reading };
    let fits = |level: &Level| level.limit.is_none_or(|limit| u128::from(difference) < 1u128 << limit);
    let at = LEVELS.iter().position(fits).expect("the last level has no limit");
    (at, (tick(at, deadline) % LEVELS[at].count) as usize)
}

fn tick(level: usize, time: u64) -> u64 {
    time / (1 << LEVELS[level].shift)
}

/// How many buckets an advance visits on a level; none if the level's tick has not moved.
fn visits(level: usize, from: u64, to: u64) -> Option<u64> {
    let (p, q) = (tick(level, from), tick(level, to));
    (q > p).then(|| (q - p + 1).min(LEVELS[level].count))
}

#[derive(Clone, Default)]
struct Clock {
    enabled: bool,
    reading: u64,
    serial: u64,
    open: bool,
    previous: u64,
    level: u64,
    step: u64,
    nodes: u64,
    entries: u64,
}

/// What a node record holds beside its links.
#[derive(Clone, Default)]
struct Timer {
    entry: u64,
    generation: u32,
    serial: u64,
}

#[derive(Clone, Default)]
struct Entry {
    deadline: Option<u64>,
    generation: u32,
}

struct Lent {
    clock: Clock,
    links: Links,
    timers: Vec<Timer>,
    entries: Vec<Entry>,
}

#[derive(Default)]
pub struct Wheel {
    lent: Option<Lent>,
}

impl Lent {
    fn new(nodes: usize, entries: usize) -> Self {
        let zeros = vec![Some(0); nodes];
        let links = Links { next: zeros.clone(), prev: zeros.clone(), place: zeros, ..Links::default() };
        let mut lent = Self {
            clock: Clock::default(),
            links,
            timers: vec![Timer::default(); nodes],
            entries: vec![Entry::default(); entries],
        };
        lent.create(0);
        lent
    }

    fn create(&mut self, serial: u64) -> String {
        self.clock = Clock { serial, ..Clock::default() };
        self.links.head = vec![None; BUCKETS];
        self.links.tail = vec![None; BUCKETS];
        self.links.free = None;
        ok()
    }

    fn lengths_in_range(&self) -> bool {
        (166..=4096).contains(&self.timers.len()) && (1..=4096).contains(&self.entries.len())
    }

    fn enable(&mut self) -> String {
        if self.clock.enabled {
            return refused(2);
        }
        if !self.lengths_in_range() {
            return refused(3);
        }
        let (reading, serial) = (self.clock.reading, self.clock.serial);
        let (nodes, entries) = (self.timers.len() as u64, self.entries.len() as u64);
        self.clock = Clock { enabled: true, reading, serial, nodes, entries, ..Clock::default() };
        (0..self.timers.len()).for_each(|slot| self.links.forget(slot));
        self.links.store(&Lists {
            at: (0..BUCKETS).map(|b| vec![b]).collect(),
            free: (BUCKETS..self.timers.len()).collect(),
        });
        self.timers.fill(Timer::default());
        self.entries.fill(Entry::default());
        ok()
    }

    fn armed(&self, slot: usize) -> bool {
        slot >= BUCKETS && self.links.place[slot].is_some()
    }

    /// Sound means, clause by clause; the lists that the links stand for.
    fn sound(&self) -> Option<Lists> {
        let lengths = self.clock.nodes == self.timers.len() as u64 && self.clock.entries == self.entries.len() as u64;
        if !lengths || !self.lengths_in_range() {
            return None;
        }
        let sentinels = (0..BUCKETS).all(|slot| self.links.place[slot] == Some(slot));
        let kinds = self.links.place.iter().all(|place| place.is_none_or(|b| b < BUCKETS));
        if !sentinels || !kinds || !self.position_sound() {
            return None;
        }
        let armed: Vec<&Timer> =
            (0..self.timers.len()).filter(|slot| self.armed(*slot)).map(|slot| &self.timers[slot]).collect();
        let exist = armed.iter().all(|timer| timer.entry < self.entries.len() as u64);
        let below = armed.iter().all(|timer| timer.serial < self.clock.serial);
        let differ = armed.iter().enumerate().all(|(i, a)| armed[..i].iter().all(|b| a.serial != b.serial));
        if !exist || !below || !differ {
            return None;
        }
        self.links.lists()
    }

    /// An open advance stands before its first bucket or in one that it visits.
    fn position_sound(&self) -> bool {
        let clock = &self.clock;
        if !clock.open || (clock.level == 0 && clock.step == 0) {
            return true;
        }
        let visited = if clock.level < 5 { visits(clock.level as usize, clock.previous, clock.reading) } else { None };
        visited.is_some_and(|count| 1 <= clock.step && clock.step <= count)
    }

    fn free_slot(&mut self, lists: &mut Lists, slot: usize) {
        lists.free.insert(0, slot);
        self.links.forget(slot);
        self.timers[slot] = Timer::default();
    }

    /// Puts a slot at the back of the bucket of its deadline, at the clock's reading. Answers the place.
    fn put(&mut self, lists: &mut Lists, slot: usize, deadline: u64) -> usize {
        let (level, index) = place(self.clock.reading, deadline);
        lists.at[LEVELS[level].first + index].push(slot);
        level * 64 + index
    }

    fn set(&mut self, entry: u64, deadline: Option<u64>, generation: u32) -> String {
        if entry >= self.entries.len() as u64 {
            return refused(7);
        }
        self.entries[entry as usize] = Entry { deadline, generation };
        ok()
    }

    fn schedule(&mut self, lists: &mut Lists, entry: u64, generation: u32) -> String {
        if entry >= self.entries.len() as u64 {
            return refused(7);
        }
        let held = self.entries[entry as usize].clone();
        if held.generation != generation {
            return refused(8);
        }
        let Some(deadline) = held.deadline else { return refused(9) };
        if lists.free.is_empty() {
            return refused(10);
        }
        if self.clock.serial == u64::MAX {
            return refused(11);
        }
        let slot = lists.free.remove(0);
        let serial = self.clock.serial;
        self.timers[slot] = Timer { entry, generation, serial };
        self.put(lists, slot, deadline);
        self.clock.serial += 1;
        format!("armed {slot} {serial}")
    }

    /// The slot of a handle and generation, or 12, or 13.
    fn handle(&self, slot: u64, serial: u64, generation: u32) -> Result<usize, String> {
        if slot >= self.timers.len() as u64 || !self.armed(slot as usize) || self.timers[slot as usize].serial != serial
        {
            return Err(refused(12));
        }
        if self.timers[slot as usize].generation != generation {
            return Err(refused(13));
        }
        Ok(slot as usize)
    }

    fn take_out(&mut self, lists: &mut Lists, slot: usize) {
        let (bucket, i) = lists.find(slot).expect("an armed slot is in a bucket");
        lists.at[bucket].remove(i);
    }

    fn reschedule(&mut self, lists: &mut Lists, slot: usize) -> String {
        self.take_out(lists, slot);
        match self.entries[self.timers[slot].entry as usize].deadline {
            Some(deadline) => {
                self.put(lists, slot, deadline);
                "rescheduled".to_string()
            }
            None => {
                self.free_slot(lists, slot);
                "removed".to_string()
            }
        }
    }

    fn deschedule(&mut self, lists: &mut Lists, slot: usize) -> String {
        self.take_out(lists, slot);
        self.free_slot(lists, slot);
        ok()
    }

    fn start(&mut self, reading: u64) -> String {
        let previous = self.clock.reading;
        self.clock = Clock { reading, open: true, previous, level: 0, step: 0, ..self.clock.clone() };
        ok()
    }

    fn close(&mut self) {
        self.clock = Clock { open: false, previous: 0, level: 0, step: 0, ..self.clock.clone() };
    }

    fn abandon(&mut self) -> String {
        self.clock.reading = self.clock.previous;
        self.close();
        ok()
    }

    /// The bucket that the open advance is in.
    fn bucket_now(&self) -> usize {
        let level = &LEVELS[self.clock.level as usize];
        let from = tick(self.clock.level as usize, self.clock.previous);
        level.first + ((from + self.clock.step - 1) % level.count) as usize
    }

    /// Goes on to the next bucket and turns it until its sentinel is last; false at the end.
    fn enter_next(&mut self, lists: &mut Lists) -> bool {
        let (from, to) = (self.clock.previous, self.clock.reading);
        let here = visits(self.clock.level as usize, from, to).unwrap_or(0);
        if self.clock.step < here {
            self.clock.step += 1;
        } else if self.clock.step > 0
            && self.clock.level < 4
            && visits(self.clock.level as usize + 1, from, to).is_some()
        {
            self.clock.level += 1;
            self.clock.step = 1;
        } else {
            return false;
        }
        let bucket = self.bucket_now();
        while *lists.at[bucket].last().expect("the sentinel is there") != bucket {
            let front = lists.at[bucket].remove(0);
            lists.at[bucket].push(front);
        }
        true
    }

    /// The event that popping one node gives, if any.
    fn popped(&mut self, lists: &mut Lists, slot: usize) -> Option<String> {
        let Timer { entry, serial, .. } = self.timers[slot];
        match self.entries[entry as usize].deadline {
            None => {
                self.free_slot(lists, slot);
                None
            }
            Some(deadline) if deadline <= self.clock.reading => {
                self.free_slot(lists, slot);
                Some(format!("expired {entry} {serial} {deadline}"))
            }
            Some(deadline) => {
                let place = self.put(lists, slot, deadline);
                Some(format!("rescheduled {entry} {serial} {place}"))
            }
        }
    }

    fn pull(&mut self, lists: &mut Lists) -> String {
        loop {
            let sentinel = if self.clock.step == 0 { None } else { Some(self.bucket_now()) };
            if let Some(bucket) = sentinel.filter(|bucket| lists.at[*bucket][0] != *bucket) {
                let slot = lists.at[bucket].remove(0);
                if let Some(event) = self.popped(lists, slot) {
                    return event;
                }
            } else if !self.enter_next(lists) {
                self.close();
                return "end".to_string();
            }
        }
    }

    fn due(&self) -> String {
        let armed = (0..self.timers.len()).filter(|slot| self.armed(*slot));
        let least = armed.filter_map(|slot| self.entries[self.timers[slot].entry as usize].deadline).min();
        least.map_or("due -".to_string(), |deadline| format!("due {deadline}"))
    }
}

/// A call of row 1, its fields read.
enum Call {
    Set(u64, Option<u64>, u32),
    Schedule(u64, u32),
    Reschedule(u64, u64, u32),
    Deschedule(u64, u64, u32),
    Start(u64),
    Pull,
    Abandon,
    Armed,
    Due,
}

fn call_of(fields: &[&str]) -> Option<Call> {
    Some(match *fields {
        ["set", entry, deadline, g] => Call::Set(number(entry)?, or_none(deadline)?, generation(g)?),
        ["schedule", entry, g] => Call::Schedule(number(entry)?, generation(g)?),
        ["reschedule", slot, serial, g] => Call::Reschedule(number(slot)?, number(serial)?, generation(g)?),
        ["deschedule", slot, serial, g] => Call::Deschedule(number(slot)?, number(serial)?, generation(g)?),
        ["start", reading] => Call::Start(number(reading)?),
        ["pull"] => Call::Pull,
        ["abandon"] => Call::Abandon,
        ["armed"] => Call::Armed,
        ["due"] => Call::Due,
        _ => return None,
    })
}

impl Lent {
    /// Refusals 1, 4, then 5 or 6; then the call.
    fn answer(&mut self, call: Call) -> String {
        if !self.clock.enabled {
            return refused(1);
        }
        let Some(mut lists) = self.sound() else { return refused(4) };
        match (&call, self.clock.open) {
            (Call::Pull | Call::Abandon, false) => return refused(6),
            (Call::Pull | Call::Abandon | Call::Armed, true) | (_, false) => (),
            (_, true) => return refused(5),
        }
        let answer = self.work(call, &mut lists);
        self.links.store(&lists);
        answer
    }

    fn work(&mut self, call: Call, lists: &mut Lists) -> String {
        match call {
            Call::Set(entry, deadline, generation) => self.set(entry, deadline, generation),
            Call::Schedule(entry, generation) => self.schedule(lists, entry, generation),
            Call::Reschedule(slot, serial, generation) => match self.handle(slot, serial, generation) {
                Ok(slot) => self.reschedule(lists, slot),
                Err(refusal) => refusal,
            },
            Call::Deschedule(slot, serial, generation) => match self.handle(slot, serial, generation) {
                Ok(slot) => self.deschedule(lists, slot),
                Err(refusal) => refusal,
            },
            Call::Start(reading) => self.start(reading),
            Call::Pull => self.pull(lists),
            Call::Abandon => self.abandon(),
            Call::Armed => format!("armed {}", (0..self.timers.len()).filter(|slot| self.armed(*slot)).count()),
            Call::Due => self.due(),
        }
    }

    fn show_clock(&self, out: &mut dyn Dump) {
        let c = &self.clock;
        let numbers =
            [c.enabled.into(), c.reading, c.serial, c.open.into(), c.previous, c.level, c.step, c.nodes, c.entries];
        let mut fields = numbers.map(Field::Is).to_vec();
        fields.push(Field::link(self.links.free));
        out.line("clock", &fields);
    }

    fn dump(&self, out: &mut dyn Dump) {
        self.show_clock(out);
        for bucket in 0..BUCKETS {
            out.line(
                "bucket",
                &[Field::Is(bucket as u64), Field::link(self.links.head[bucket]), Field::link(self.links.tail[bucket])],
            );
        }
        for (slot, timer) in self.timers.iter().enumerate() {
            let [next, prev, bucket] =
                [&self.links.next, &self.links.prev, &self.links.place].map(|links| Field::link(links[slot]));
            out.line(
                "node",
                &[
                    Field::Is(slot as u64),
                    next,
                    prev,
                    bucket,
                    Field::Is(timer.entry),
                    Field::Is(timer.generation.into()),
                    Field::Is(timer.serial),
                ],
            );
        }
        for (at, entry) in self.entries.iter().enumerate() {
            out.line(
                "entry",
                &[Field::Is(at as u64), Field::Deadline(entry.deadline), Field::Is(entry.generation.into())],
            );
        }
    }

    fn poke_node(&mut self, slot: u64, field: &str, value: &str) -> Option<String> {
        let slot = usize::try_from(slot).ok().filter(|s| *s < self.timers.len())?;
        let links: &mut Vec<Link> = match field {
            "next" => &mut self.links.next,
            "prev" => &mut self.links.prev,
            "bucket" => &mut self.links.place,
            "entry" => {
                self.timers[slot].entry = number(value)?;
                return Some(ok());
            }
            "generation" => {
                self.timers[slot].generation = generation(value)?;
                return Some(ok());
            }
            "serial" => {
                self.timers[slot].serial = number(value)?;
                return Some(ok());
            }
            _ => return None,
        };
        links[slot] = link(value)?;
        Some(ok())
    }

    fn poke_bucket(&mut self, bucket: u64, field: &str, value: &str) -> Option<String> {
        let bucket = usize::try_from(bucket).ok().filter(|b| *b < BUCKETS)?;
        match field {
            "head" => self.links.head[bucket] = link(value)?,
            "tail" => self.links.tail[bucket] = link(value)?,
            _ => return None,
        }
        Some(ok())
    }

    fn poke_clock(&mut self, field: &str, value: &str) -> Option<String> {
        let flag = || number(value).filter(|n| *n < 2).map(|n| n == 1);
        match field {
            "enabled" => self.clock.enabled = flag()?,
            "open" => self.clock.open = flag()?,
            "free" => self.links.free = link(value)?,
            "reading" => self.clock.reading = number(value)?,
            "serial" => self.clock.serial = number(value)?,
            "previous" => self.clock.previous = number(value)?,
            "level" => self.clock.level = number(value)?,
            "step" => self.clock.step = number(value)?,
            "nodes" => self.clock.nodes = number(value)?,
            "entries" => self.clock.entries = number(value)?,
            _ => return None,
        }
        Some(ok())
    }

    fn shown(&self, word: &str) -> String {
        if word == "digest" {
            let mut digest = Digest::default();
            self.dump(&mut digest);
            return digest.answer();
        }
        let mut text = Text::default();
        match word {
            "clock" => self.show_clock(&mut text),
            _ => self.dump(&mut text),
        }
        text.answer()
    }
}

impl Module for Wheel {
    fn call(&mut self, fields: &[&str]) -> Option<String> {
        if let ["place", reading, deadline] = *fields {
            let (level, index) = place(number(reading)?, number(deadline)?);
            return Some(format!("place {}", level * 64 + index));
        }
        if let ["lend", nodes, entries] = *fields {
            let (nodes, entries) = (number(nodes)?, number(entries)?);
            if nodes > 4100 || entries > 4100 {
                return None;
            }
            self.lent = Some(Lent::new(nodes as usize, entries as usize));
            return Some(ok());
        }
        let lent = self.lent.as_mut()?;
        match *fields {
            ["create", serial] => Some(lent.create(number(serial)?)),
            ["enable"] => Some(lent.enable()),
            ["bucket", bucket] => {
                let head = lent.links.head.get(usize::try_from(number(bucket)?).ok()?)?;
                Some(listed("bucket", &lent.links.walk(*head).0))
            }
            [word @ ("clock" | "dump" | "digest")] => Some(lent.shown(word)),
            ["poke-node", slot, field, value] => lent.poke_node(number(slot)?, field, value),
            ["poke-bucket", bucket, field, value] => lent.poke_bucket(number(bucket)?, field, value),
            ["poke-clock", field, value] => lent.poke_clock(field, value),
            _ => Some(lent.answer(call_of(fields)?)),
        }
    }
}
