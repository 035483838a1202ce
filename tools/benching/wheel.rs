//! The wheel's workloads on the Rust: one timer for each entry, so many entries as there are slots after the sentinels.

use crate::common::concurrent::entry_info::EntryInfo;
use crate::common::concurrent::DeqNodes;
use crate::common::deque::DeqNode;
use crate::common::parking_lot::Mutex;
use crate::common::time::Instant;
use crate::common::timer_wheel::{TimerEvent, TimerNode, TimerWheel};
use crate::Numbers;
use std::cell::Cell;
use std::marker::PhantomData;
use std::ptr::NonNull;
use std::rc::Rc;

struct Bench {
    wheel: TimerWheel<usize>,
    entries: Vec<Rc<EntryInfo<usize>>>,
    armed: Vec<Option<NonNull<DeqNode<TimerNode<usize>>>>>,
    digest: u64,
}

impl Bench {
    fn new(nodes: u64) -> Self {
        let entry = |key| EntryInfo { key, deadline: Cell::new(None), generation: Cell::new(0) };
        let mut wheel = TimerWheel::new(Instant(0));
        wheel.enable();
        let count = nodes as usize - 165;
        Self {
            wheel,
            entries: (0..count).map(|key| Rc::new(entry(key))).collect(),
            armed: vec![None; count],
            digest: 14695981039346656037,
        }
    }

    fn fold(&mut self, number: u64) {
        self.digest = (self.digest ^ number).wrapping_mul(1099511628211);
    }

    /// Sets an entry and arms it.
    fn arm(&mut self, entry: usize, deadline: u64) {
        let info = &self.entries[entry];
        info.deadline.set(Some(Instant(deadline)));
        let nodes = Rc::new(Mutex::new(DeqNodes { armed: true, keys: PhantomData }));
        self.armed[entry] = self.wheel.schedule(info.clone(), nodes, 0);
    }

    /// An advance read to its end: the expired entries in turn, and how many timers were moved.
    fn advance(&mut self, reading: u64, expired: &mut Vec<usize>) -> u64 {
        let mut moved = 0;
        expired.clear();
        for event in self.wheel.advance(Instant(reading)) {
            match event {
                TimerEvent::Expired(node) => expired.push(node.element.entry_info().key),
                _ => moved += 1,
            }
        }
        for entry in expired.iter() {
            self.armed[*entry] = None;
            self.fold(*entry as u64);
        }
        moved
    }
}

fn cancel(nodes: u64, calls: u64, numbers: &mut Numbers) -> u64 {
    let mut bench = Bench::new(nodes);
    let count = bench.entries.len() as u64;
    for _ in 0..calls {
        let x = numbers.next();
        let entry = (x % count) as usize;
        match bench.armed[entry].take() {
            Some(node) => {
                bench.wheel.deschedule(node, 0);
            }
            None => bench.arm(entry, x >> 14),
        }
    }
    bench.advance(u64::MAX, &mut Vec::new());
    bench.digest
}

/// Advances by `step(x)`, each expired entry armed again `delay(x)` later.
fn run_on(nodes: u64, calls: u64, numbers: &mut Numbers, step: fn(u64) -> u64, delay: fn(u64) -> u64) -> u64 {
    let mut bench = Bench::new(nodes);
    for entry in 0..bench.entries.len() {
        bench.arm(entry, delay(numbers.next()));
    }
    let (mut reading, mut moved, mut expired) = (0u64, 0u64, Vec::new());
    for _ in 0..calls {
        reading += step(numbers.next());
        moved += bench.advance(reading, &mut expired);
        for entry in expired.iter() {
            bench.arm(*entry, reading + delay(numbers.next()));
        }
    }
    bench.fold(moved);
    bench.digest
}

pub fn run(workload: &str, nodes: u64, calls: u64, mut numbers: Numbers) -> Option<u64> {
    if !(166..=4096).contains(&nodes) {
        return None;
    }
    match workload {
        "cancel" => Some(cancel(nodes, calls, &mut numbers)),
        "ticks" => Some(run_on(nodes, calls, &mut numbers, |_| 1 << 30, |x| x % (1 << 37))),
        "jumps" => Some(run_on(nodes, calls, &mut numbers, |x| (1 << 40) + x % (1 << 44), |x| x >> 12)),
        _ => None,
    }
}
