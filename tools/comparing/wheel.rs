//! Traces for the wheel.

use crate::lines::Module;
use crate::model_wheel;
use crate::random::Random;
use crate::trace::Trace;
use crate::Source;

pub struct Wheels {
    /// Whether records are poked.
    pub damage: bool,
    /// How far the systematic pairs for the placement function have come.
    pub placed: u64,
}

/// What is lent in the session, the generations that entries were set to, and the handles that were given.
struct Lent {
    nodes: u64,
    entries: u64,
    generations: [u64; 9],
    handles: Vec<Handle>,
}

#[derive(Clone, Copy)]
struct Handle {
    slot: u64,
    serial: u64,
    generation: u64,
}

const SHIFTS: [u32; 5] = [30, 36, 42, 47, 49];
const COUNTS: [u64; 5] = [64, 64, 32, 4, 1];
const FIRST: [u64; 5] = [0, 64, 128, 160, 164];
const BUCKETS: u64 = 165;

impl Source for Wheels {
    fn session(&mut self, t: &mut Trace) {
        if self.damage && !t.random.once_in(20) {
            return damaged(t);
        }
        match t.random.below(12) {
            0 => self.places(t),
            1 => odd_lengths(t),
            _ => lesson(t),
        }
    }

    fn model(&self) -> Option<Box<dyn Module>> {
        Some(Box::new(model_wheel::Wheel::default()))
    }

    fn summary(&self) -> String {
        format!("{} systematic pairs for place", self.placed)
    }
}

/// A time around a tick or level edge, near an end of the range, or anything.
pub fn time(r: &mut Random) -> u64 {
    let nudge = r.pick(&[0, 1, 2, 0u64.wrapping_sub(1)]);
    let shift = r.pick(&SHIFTS);
    match r.below(8) {
        0 => r.below(50),
        1 => u64::MAX - r.below(3),
        2 => (1u64 << shift).wrapping_add(nudge),
        3 | 4 => (r.below(200) << shift).wrapping_add(nudge),
        5 => u64::MAX - (r.below(5) << shift).wrapping_add(nudge),
        6 => r.bits() >> r.below(40),
        _ => r.below(10) << 30,
    }
}

/// A time near another one: the same tick, some ticks on, at a level's limit, or before it.
pub fn near(r: &mut Random, reading: u64) -> u64 {
    let nudge = r.pick(&[0, 1, 0u64.wrapping_sub(1)]);
    let shift = r.pick(&SHIFTS);
    let ticks = r.pick(&[0, 1, 2, 3, 4, 5, 31, 32, 33, 63, 64, 65, 66]);
    let on = reading.saturating_add(ticks << shift);
    match r.below(10) {
        0 => reading,
        1 => reading.saturating_add(r.below(1 << 31)),
        2..=4 => on.wrapping_add(nudge),
        5 | 6 => (on >> shift << shift).wrapping_add(nudge),
        7 => reading.saturating_sub(r.below(3) << shift).wrapping_add(nudge),
        8 => reading.saturating_sub(r.below(1 << 33)),
        _ => time(r),
    }
}

fn generation(r: &mut Random) -> u64 {
    match r.below(20) {
        0 => r.pick(&[1 << 32, u64::MAX]),
        1 | 2 => r.pick(&[u64::from(u32::MAX), 1 << 31, 1 << 16, 4096, 256]),
        3..=7 => r.below(3),
        _ => 0,
    }
}

fn entry(r: &mut Random, lent: &Lent) -> u64 {
    if r.once_in(40) {
        return r.pick(&[lent.entries, lent.entries + 1, 4095, 4096, 5000, 1 << 32, u64::MAX]);
    }
    r.below(lent.entries.min(9))
}

fn reading(t: &mut Trace) -> u64 {
    let clock = t.ask("clock");
    clock.split(' ').nth(2).and_then(|n| n.parse().ok()).unwrap_or(0)
}

fn begin(t: &mut Trace, nodes: u64, entries: u64) -> Lent {
    call!(t, "lend {nodes} {entries}");
    if t.random.once_in(8) {
        call!(
            t,
            "{}",
            t.random.pick(&[
                "pull",
                "armed",
                "due",
                "abandon",
                "set 0 1 0",
                "schedule 0 0",
                "start 5",
                "clock",
                "digest",
                "bucket 3"
            ])
        );
    }
    let serial = match t.random.below(5) {
        0 => 0,
        1 => u64::MAX - t.random.below(12),
        2 => t.random.edge(),
        _ => t.random.below(100),
    };
    call!(t, "create {serial}");
    call!(t, "enable");
    Lent { nodes, entries, generations: [0; 9], handles: Vec::new() }
}

/// A wheel through many calls and advances.
fn lesson(t: &mut Trace) {
    let nodes = match t.random.below(30) {
        0 => 4096,
        1 | 2 => t.random.range(200, 330),
        3..=8 => t.random.range(166, 168),
        _ => t.random.range(168, 185),
    };
    let entries = match t.random.below(30) {
        0 => 4096,
        1 | 2 => 1,
        _ => t.random.range(2, 12),
    };
    let mut lent = begin(t, nodes, entries);
    (0..entries.min(9)).for_each(|_| set(t, &mut lent));
    let calls = t.random.range(30, 900);
    let end = t.lines + calls;
    let eager = t.random.below(4);
    while t.lines < end {
        match t.random.below(11 + eager * 3) {
            0 | 1 => advance(t, &mut lent),
            2 => look(t, &lent),
            3 if t.random.once_in(30) => {
                call!(t, "create {}", t.random.below(50));
                call!(t, "digest");
                call!(t, "armed");
                call!(t, "enable");
                lent.generations = [0; 9];
            }
            3..=5 => handle_call(t, &mut lent),
            6 | 7 => set(t, &mut lent),
            _ => arm(t, &mut lent),
        }
    }
}

fn set(t: &mut Trace, lent: &mut Lent) {
    let now = reading(t);
    let r = &mut t.random;
    let (entry, generation) = (entry(r, lent), generation(r));
    let answer = match r.below(6) {
        0 => answer!(t, "set {entry} - {generation}"),
        _ => answer!(t, "set {entry} {} {generation}", near(&mut t.random, now)),
    };
    if let (Some(held), "ok") = (lent.generations.get_mut(entry as usize), answer.as_str()) {
        *held = generation;
    }
}

/// Schedules an entry, mostly with the generation that it has.
fn arm(t: &mut Trace, lent: &mut Lent) {
    if t.random.once_in(3) {
        set(t, lent);
    }
    let r = &mut t.random;
    let entry = entry(r, lent);
    let held = lent.generations.get(entry as usize).copied().unwrap_or(0);
    let generation = if r.once_in(8) { generation(r) } else { held };
    let answer = answer!(t, "schedule {entry} {generation}");
    let mut words = answer.split(' ');
    if words.next() == Some("armed") {
        let mut number = || words.next().and_then(|n| n.parse().ok()).unwrap_or(0);
        lent.handles.push(Handle { slot: number(), serial: number(), generation });
    }
}

/// Reschedule or deschedule: a live handle, a stale one, a sentinel, what is absent; another generation at times.
fn handle_call(t: &mut Trace, lent: &mut Lent) {
    let r = &mut t.random;
    let at = r.below(lent.handles.len() as u64) as usize;
    let none = Handle { slot: 165, serial: 0, generation: 0 };
    let Handle { mut slot, mut serial, generation: held } = lent.handles.get(at).copied().unwrap_or(none);
    match r.below(30) {
        0 => slot = r.pick(&[0, 64, 164, lent.nodes, lent.nodes - 1, 4096, 5000, 1 << 32, u64::MAX]),
        1 => serial = serial.wrapping_add(1),
        2 => serial = r.edge(),
        3 => slot += 1,
        _ => (),
    }
    let generation = if r.once_in(10) { generation(r) } else { held };
    if r.once_in(5) {
        set(t, lent);
    }
    let answer = match t.random.below(3) {
        0 => answer!(t, "deschedule {slot} {serial} {generation}"),
        _ => answer!(t, "reschedule {slot} {serial} {generation}"),
    };
    if answer == "refused 12" && at < lent.handles.len() && !t.random.once_in(4) {
        lent.handles.swap_remove(at);
    }
}

/// An advance: on, to a tick edge, to what is due, back, or not at all; read to its end or abandoned.
fn advance(t: &mut Trace, lent: &mut Lent) {
    let now = reading(t);
    let due: Option<u64> = t.ask("due").strip_prefix("due ").and_then(|n| n.parse().ok());
    let nudge = t.random.pick(&[0, 1, 1 << 30, 0u64.wrapping_sub(1), 1 << 31]);
    let to = match (t.random.below(4), due) {
        (0, Some(due)) => due.wrapping_add(nudge),
        (1, Some(due)) => ((due >> 30) + 1) << 30,
        (2, _) => time(&mut t.random),
        _ => near(&mut t.random, now),
    };
    call!(t, "start {to}");
    let most = if t.random.once_in(3) { t.random.below(4) } else { 400 };
    for _ in 0..most {
        if t.random.once_in(12) {
            meanwhile(t, lent);
        }
        let answer = answer!(t, "pull");
        if answer == "end" || answer.starts_with("refused") {
            break;
        }
        if t.random.once_in(4) {
            call!(t, "clock");
        }
        if t.random.once_in(20 + lent.nodes / 20) {
            call!(t, "digest");
        }
    }
    if t.random.once_in(10) {
        look(t, lent);
    }
    if t.ask("clock").split(' ').nth(4) == Some("1") || t.random.once_in(6) {
        call!(t, "abandon");
    }
    if t.random.once_in(3) {
        call!(t, "clock");
    }
}

/// A call while an advance is open.
fn meanwhile(t: &mut Trace, lent: &mut Lent) {
    match t.random.below(9) {
        0 => set(t, lent),
        1 => arm(t, lent),
        2 => handle_call(t, lent),
        3 => call!(t, "start {}", t.random.edge()),
        4 => call!(t, "due"),
        5 => call!(t, "enable"),
        6 => look(t, lent),
        _ => call!(t, "armed"),
    }
}

fn look(t: &mut Trace, lent: &Lent) {
    match t.random.below(12) {
        0..=2 => call!(t, "armed"),
        3..=5 => call!(t, "due"),
        6 => call!(t, "clock"),
        7 => call!(t, "bucket {}", t.random.below(BUCKETS + 2)),
        8 => call!(t, "bucket {}", t.random.pick(&[0, 1, 63, 64, 127, 128, 159, 160, 163, 164, 165, u64::MAX])),
        9 if t.random.once_in(10 + lent.nodes / 8) => call!(t, "dump"),
        10 => call!(t, "enable"),
        _ if t.random.once_in(1 + lent.nodes / 100) => call!(t, "digest"),
        _ => call!(t, "armed"),
    };
}

/// Lengths at and outside the range, and calls on a wheel that is not enabled.
fn odd_lengths(t: &mut Trace) {
    let nodes = t.random.pick(&[0, 1, 100, 164, 165, 166, 167, 4095, 4096, 4097, 4100, 4101, 1 << 32, u64::MAX]);
    let entries = t.random.pick(&[0, 1, 2, 4095, 4096, 4097, 4100, 4101, u64::MAX]);
    let mut lent = begin(t, nodes, entries);
    for _ in 0..t.random.below(12) {
        match t.random.below(5) {
            0 => set(t, &mut lent),
            1 => arm(t, &mut lent),
            2 => call!(t, "start {}", t.random.edge()),
            3 => call!(t, "pull"),
            _ => look(t, &lent),
        }
    }
    call!(t, "digest");
}

impl Wheels {
    /// The host's function: every pair of edges in turn, and random ones.
    fn places(&mut self, t: &mut Trace) {
        let mut edges = vec![0, 1, 2, u64::MAX, u64::MAX - 1];
        for shift in [30, 31, 35, 36, 37, 41, 42, 43, 46, 47, 48, 49, 50, 63] {
            edges.extend([(1u64 << shift) - 1, 1 << shift, (1 << shift) + 1, 3 << (shift - 1), 5u64 << (shift - 3)]);
        }
        let count = edges.len() as u64;
        for _ in 0..t.random.range(100, 400) {
            let (a, b) = (edges[(self.placed / count % count) as usize], edges[(self.placed % count) as usize]);
            self.placed += 1;
            call!(t, "place {a} {b}");
            call!(t, "place {a} {}", a.wrapping_add(b));
            let now = time(&mut t.random);
            call!(t, "place {now} {}", near(&mut t.random, now));
            call!(t, "place {} {}", t.random.bits(), t.random.bits());
        }
    }
}

/// A small wheel whose records are poked: after calls, or written from random lists; then one field more, or none.
fn damaged(t: &mut Trace) {
    let (nodes, entries) = (t.random.range(166, 174), t.random.range(1, 4));
    let mut lent = begin(t, nodes, entries);
    for entry in 0..entries {
        call!(t, "set {entry} {} 0", time(&mut t.random));
    }
    if t.random.once_in(2) {
        sculpt(t, &mut lent);
    } else {
        for _ in 0..t.random.below(12) {
            arm(t, &mut lent);
        }
        if t.random.once_in(2) {
            call!(t, "start {}", time(&mut t.random));
            call!(t, "pull");
        }
    }
    for _ in 0..t.random.below(3) {
        poke(t, &lent);
    }
    for _ in 0..t.random.range(2, 8) {
        match t.random.below(10) {
            0 => set(t, &mut lent),
            1 => arm(t, &mut lent),
            2 => handle_call(t, &mut lent),
            3 => call!(t, "abandon"),
            4 => advance(t, &mut lent),
            5 => look(t, &lent),
            _ => call!(t, "pull"),
        }
    }
    call!(t, "digest");
    if t.random.once_in(6) {
        call!(t, "{}", t.random.pick(&["create 3", "enable", "poke-clock enabled 0"]));
        call!(t, "enable");
        call!(t, "digest");
    }
}

fn shown(link: Option<&u64>) -> String {
    link.map_or("-".to_string(), u64::to_string)
}

/// Armed slots in a few buckets, sentinels anywhere among them, a free chain in any order, an advance anywhere.
fn sculpt(t: &mut Trace, lent: &mut Lent) {
    let (previous, now) = (time(&mut t.random), time(&mut t.random));
    let (previous, now) = if t.random.once_in(4) { (previous, now) } else { (previous.min(now), previous.max(now)) };
    let mut buckets: Vec<(u64, Vec<u64>)> = Vec::new();
    let mut free = Vec::new();
    for slot in BUCKETS..lent.nodes {
        let level = t.random.below(5) as usize;
        let bucket = FIRST[level] + ((previous >> SHIFTS[level]) + t.random.below(2)) % COUNTS[level];
        if t.random.once_in(3) {
            let at = t.random.below(free.len() as u64 + 1) as usize;
            free.insert(at, slot);
            continue;
        }
        let found = buckets.iter().position(|(b, _)| *b == bucket);
        let i = found.unwrap_or_else(|| {
            buckets.push((bucket, vec![bucket]));
            buckets.len() - 1
        });
        let at = t.random.below(buckets[i].1.len() as u64 + 1) as usize;
        buckets[i].1.insert(at, slot);
    }
    misplace(&mut t.random, &mut buckets, &mut free);
    for (bucket, slots) in &buckets {
        write_bucket(t, lent, *bucket, slots);
    }
    for (i, slot) in free.iter().enumerate() {
        call!(t, "poke-node {slot} next {}", shown(free.get(i + 1)));
        call!(t, "poke-node {slot} bucket -");
        if t.random.once_in(4) {
            let field = t.random.pick(&["entry", "serial", "generation", "prev"]);
            call!(t, "poke-node {slot} {field} {}", t.random.below(4096));
        }
    }
    call!(t, "poke-clock free {}", shown(free.first()));
    call!(t, "poke-clock serial {}", lent.nodes - 1 + t.random.below(4));
    call!(t, "poke-clock reading {now}");
    if !t.random.once_in(3) {
        write_position(t, previous, now);
    }
}

/// Now and then two sentinels stand in each other's bucket, or one is free: links that run well and are not sound.
fn misplace(r: &mut Random, buckets: &mut [(u64, Vec<u64>)], free: &mut Vec<u64>) {
    let kind = r.below(24);
    if kind == 0 && !buckets.is_empty() {
        let (bucket, slots) = &mut buckets[0];
        slots.retain(|slot| slot != bucket);
        free.push(*bucket);
    }
    if kind == 1 && buckets.len() > 1 {
        let (a, b) = (buckets[0].0, buckets[1].0);
        let all = buckets.iter_mut().flat_map(|(_, slots)| slots);
        all.for_each(|slot| {
            *slot = if *slot == a {
                b
            } else if *slot == b {
                a
            } else {
                *slot
            }
        });
    }
}

/// The end of some list or of the free chain goes on to what is no record, or to a record.
fn overrun(t: &mut Trace, lent: &Lent) {
    let dump = t.ask("dump");
    let nodes = dump.lines().filter_map(|line| line.strip_prefix("node "));
    let ends: Vec<&str> = nodes.filter(|node| node.split(' ').nth(1) == Some("-")).collect();
    let last: Vec<u64> = ends.iter().rev().take(8).filter_map(|node| node.split(' ').next()?.parse().ok()).collect();
    if !last.is_empty() {
        let slot = t.random.pick(&last);
        call!(t, "poke-node {slot} next {}", t.random.pick(&[lent.nodes, lent.nodes, 4095, slot, 0, 165]));
    }
}

fn write_bucket(t: &mut Trace, lent: &mut Lent, bucket: u64, slots: &[u64]) {
    for (i, slot) in slots.iter().enumerate() {
        call!(t, "poke-node {slot} next {}", shown(slots.get(i + 1)));
        call!(t, "poke-node {slot} prev {}", shown(i.checked_sub(1).and_then(|i| slots.get(i))));
        call!(t, "poke-node {slot} bucket {bucket}");
        if *slot >= BUCKETS {
            call!(t, "poke-node {slot} serial {slot}");
            call!(t, "poke-node {slot} entry {}", t.random.below(lent.entries));
            lent.handles.push(Handle { slot: *slot, serial: *slot, generation: 0 });
        }
    }
    call!(t, "poke-bucket {bucket} head {}", shown(slots.first()));
    call!(t, "poke-bucket {bucket} tail {}", shown(slots.last()));
}

/// An open advance in a bucket that it visits, or just outside.
fn write_position(t: &mut Trace, previous: u64, now: u64) {
    let level = t.random.below(5) as usize;
    let (p, q) = (previous >> SHIFTS[level], now >> SHIFTS[level]);
    let last = (q.saturating_sub(p) + 1).min(COUNTS[level]);
    let step = match t.random.below(6) {
        0 => 0,
        1 => last,
        2 => last + 1,
        3 => 1,
        _ => t.random.range(1, last),
    };
    call!(t, "poke-clock open 1");
    call!(t, "poke-clock previous {previous}");
    call!(t, "poke-clock level {level}");
    call!(t, "poke-clock step {step}");
}

fn link(r: &mut Random, lent: &Lent) -> String {
    match r.below(12) {
        0..=2 => "-".to_string(),
        3 => lent.nodes.to_string(),
        4 => r.pick(&["4095", "4096", "4097", "end", "18446744073709551615", "165"]).to_string(),
        5 => r.below(BUCKETS).to_string(),
        _ => r.range(BUCKETS, lent.nodes - 1).to_string(),
    }
}

fn poke(t: &mut Trace, lent: &Lent) {
    let r = &mut t.random;
    let slot = match r.below(12) {
        0 => r.pick(&[lent.nodes, 4096, u64::MAX]),
        1..=3 => r.below(BUCKETS),
        _ => r.range(BUCKETS, lent.nodes - 1),
    };
    let value = link(r, lent);
    match r.below(25) {
        24 => overrun(t, lent),
        0..=2 => call!(t, "poke-node {slot} next {value}"),
        3..=5 => call!(t, "poke-node {slot} prev {value}"),
        6 | 7 => {
            let bucket = t.random.pick(&[0, 1, 63, 64, 163, 164, 165, 166, 4095, slot]);
            call!(t, "poke-node {slot} bucket {bucket}")
        }
        8 => call!(t, "poke-node {slot} bucket {value}"),
        9 => call!(
            t,
            "poke-node {slot} entry {}",
            t.random.pick(&[0, 1, lent.entries - 1, lent.entries, 4096, u64::MAX])
        ),
        10 => call!(t, "poke-node {slot} generation {}", generation(&mut t.random)),
        11 => call!(t, "poke-node {slot} serial {}", t.random.range(BUCKETS, lent.nodes)),
        12 => call!(t, "poke-node {slot} serial {}", t.random.pick(&[0, 1, 2, 165, 166, u64::MAX])),
        13 => call!(t, "poke-bucket {} head {value}", t.random.pick(&[0, 1, 64, 164, 165])),
        14 => call!(t, "poke-bucket {} tail {value}", t.random.pick(&[0, 1, 64, 164, 165])),
        15 => call!(t, "poke-clock free {value}"),
        16 => call!(t, "poke-clock serial {}", t.random.pick(&[0, 1, 165, 167, 170, u64::MAX])),
        17 => {
            call!(t, "poke-clock nodes {}", t.random.pick(&[lent.nodes, lent.nodes - 1, lent.nodes + 1, 0, u64::MAX]))
        }
        18 => call!(t, "poke-clock entries {}", t.random.pick(&[lent.entries, lent.entries - 1, lent.entries + 1, 0])),
        19 => call!(t, "poke-clock open {}", t.random.below(3)),
        20 => call!(t, "poke-clock level {}", t.random.pick(&[0, 1, 2, 3, 4, 5, 1 << 32, u64::MAX])),
        21 => call!(t, "poke-clock step {}", t.random.pick(&[0, 1, 2, 5, 32, 33, 64, 65, 1 << 32, u64::MAX])),
        22 => {
            let field = t.random.pick(&["reading", "previous", "enabled"]);
            call!(t, "poke-clock {field} {}", time(&mut t.random))
        }
        _ => {
            let odd = [
                "poke-clock free end",
                "poke-clock enabled 2",
                "poke-clock enabled 0",
                "poke-clock open -",
                "poke-node 0 home 1",
                "poke-bucket 0 next 1",
                "poke-node 165 serial -",
                "poke-clock channel 1",
                "poke-node 166 entry -",
                "poke-clock level -",
            ];
            let odd = t.random.pick(&odd);
            call!(t, "{odd}")
        }
    };
}
