//! Traces for the deques.

use crate::lines::Module;
use crate::model_deque;
use crate::random::Random;
use crate::trace::Trace;
use crate::Source;

pub struct Deques {
    /// Whether records are poked.
    pub damage: bool,
}

/// Deques and nodes of the session.
#[derive(Clone, Copy)]
struct Pool {
    deques: u64,
    nodes: u64,
}

impl Source for Deques {
    fn session(&mut self, t: &mut Trace) {
        if self.damage && !t.random.once_in(20) {
            return damaged(t);
        }
        let pool = make(t);
        let count = match pool.nodes {
            1000.. => 6_000,
            _ => t.random.range(20, 600),
        };
        let style = t.random.below(5);
        for _ in 0..count {
            call(t, pool, style);
        }
    }

    fn model(&self) -> Option<Box<dyn Module>> {
        Some(Box::new(model_deque::Deques::default()))
    }
}

fn make(t: &mut Trace) -> Pool {
    if t.random.once_in(4) {
        let odd = [0, 1, 2, 255, 256, 257, 300, 4095, 4096, 4097, 1 << 16, 1 << 32, (1 << 32) + 1, u64::MAX];
        let (deques, nodes) = (t.random.pick(&odd), t.random.pick(&odd));
        call!(t, "make {deques} {nodes}");
        call!(t, "length 0");
    }
    let pool = match t.random.below(180) {
        0 => Pool { deques: t.random.range(1, 4), nodes: 4096 },
        1..=4 => Pool { deques: 256, nodes: t.random.range(1, 300) },
        5..=60 => Pool { deques: 1, nodes: t.random.range(1, 8) },
        _ => Pool { deques: t.random.range(1, 5), nodes: t.random.range(1, 24) },
    };
    call!(t, "make {} {}", pool.deques, pool.nodes);
    pool
}

fn deque(r: &mut Random, pool: Pool) -> u64 {
    if r.once_in(40) {
        return r.pick(&[pool.deques, pool.deques + 1, 256, 300, 4096, 1 << 32, u64::MAX]);
    }
    r.below(pool.deques.min(12))
}

/// A slot: mostly one that is in the deque.
fn slot(t: &mut Trace, pool: Pool, deque: u64) -> u64 {
    if t.random.once_in(25) {
        return t.random.pick(&[pool.nodes, pool.nodes + 1, 4095, 4096, 4097, 1 << 32, u64::MAX]);
    }
    let list = if t.random.once_in(6) { String::new() } else { t.ask(&format!("list {deque}")) };
    let members: Vec<u64> = list.split(' ').skip(1).filter_map(|s| s.parse().ok()).collect();
    match members.is_empty() {
        true => t.random.below(pool.nodes),
        false => t.random.pick(&members),
    }
}

/// One call; the style says which kinds come often.
fn call(t: &mut Trace, pool: Pool, style: u64) {
    let at = deque(&mut t.random, pool);
    let kind = match (t.random.below(3), style) {
        (0, 0) => 0,
        (0, 1) => 20,
        (0, 2) => 40,
        (0, 3) => 50,
        (0, _) => 70,
        _ => t.random.below(100),
    };
    match kind {
        0..=19 => call!(t, "push {at} {}", t.random.edge()),
        20..=31 => call!(t, "pop {at}"),
        32..=35 => call!(t, "front {at}"),
        36..=39 => call!(t, "back {at}"),
        40..=49 => {
            let slot = slot(t, pool, at);
            call!(t, "move {at} {slot}")
        }
        50..=61 => {
            let slot = slot(t, pool, at);
            call!(t, "unlink {at} {slot}")
        }
        62..=66 => call!(t, "length {at}"),
        67..=84 => call!(t, "next {at}"),
        85 | 86 => call!(t, "reset {at}"),
        87..=91 => call!(t, "list {at}"),
        92 if t.random.once_in(1 + (pool.nodes + pool.deques) / 4) => call!(t, "dump"),
        _ if t.random.once_in(1 + pool.nodes / 64) => call!(t, "digest"),
        _ => call!(t, "length {at}"),
    };
}

/// A small pool whose records are written by pokes: damaged in a field or two after calls, or made from random lists.
fn damaged(t: &mut Trace) {
    let pool = Pool { deques: t.random.range(1, 3), nodes: t.random.range(1, 8) };
    call!(t, "make {} {}", pool.deques, pool.nodes);
    if t.random.once_in(2) {
        sculpt(t, pool);
    } else {
        let style = t.random.below(5);
        for _ in 0..t.random.below(25) {
            call(t, pool, style);
        }
    }
    for _ in 0..t.random.below(3) {
        poke(t, pool);
    }
    let style = t.random.below(5);
    for _ in 0..t.random.range(2, 6) {
        call(t, pool, style);
    }
    call!(t, "digest");
}

fn shown(link: Option<&u64>) -> String {
    link.map_or("-".to_string(), u64::to_string)
}

/// Random lists of slots, written field by field.
fn sculpt(t: &mut Trace, pool: Pool) {
    let mut lists: Vec<Vec<u64>> = vec![Vec::new(); pool.deques as usize + 1];
    for slot in 0..pool.nodes {
        let list = t.random.below(pool.deques + 1) as usize;
        let at = t.random.below(lists[list].len() as u64 + 1) as usize;
        lists[list].insert(at, slot);
    }
    let free = lists.pop().unwrap_or_default();
    for (deque, list) in lists.iter().enumerate() {
        for (i, slot) in list.iter().enumerate() {
            call!(t, "poke-node {slot} next {}", shown(list.get(i + 1)));
            call!(t, "poke-node {slot} prev {}", shown(i.checked_sub(1).and_then(|i| list.get(i))));
            call!(t, "poke-node {slot} home {deque}");
            call!(t, "poke-node {slot} element {}", t.random.edge());
        }
        call!(t, "poke-deque {deque} head {}", shown(list.first()));
        call!(t, "poke-deque {deque} tail {}", shown(list.last()));
        call!(t, "poke-deque {deque} length {}", list.len());
        let cursor = match t.random.below(4) {
            0 => "end".to_string(),
            1 | 2 if !list.is_empty() => t.random.pick(list).to_string(),
            _ => "-".to_string(),
        };
        call!(t, "poke-deque {deque} cursor {cursor}");
    }
    for (i, slot) in free.iter().enumerate() {
        call!(t, "poke-node {slot} next {}", shown(free.get(i + 1)));
        call!(t, "poke-node {slot} home -");
        if t.random.once_in(3) {
            call!(t, "poke-node {slot} prev {}", t.random.below(4096));
            call!(t, "poke-node {slot} element {}", t.random.edge());
        }
    }
    call!(t, "poke-free {}", shown(free.first()));
}

/// A value for a field that may be none: a slot, none, or what is neither.
fn link(r: &mut Random, pool: Pool) -> String {
    match r.below(12) {
        0..=2 => "-".to_string(),
        3 => pool.nodes.to_string(),
        4 => r.pick(&["4095", "4096", "4097", "end", "18446744073709551615", "--", "0x"]).to_string(),
        _ => r.below(pool.nodes).to_string(),
    }
}

fn poke(t: &mut Trace, pool: Pool) {
    let r = &mut t.random;
    let (mut at, mut slot) = (r.below(pool.deques), r.below(pool.nodes));
    if r.once_in(20) {
        (at, slot) = (r.pick(&[pool.deques, 256, u64::MAX]), r.pick(&[pool.nodes, 4096, u64::MAX]));
    }
    let value = link(r, pool);
    match r.below(16) {
        0..=2 => call!(t, "poke-node {slot} next {value}"),
        3..=5 => call!(t, "poke-node {slot} prev {value}"),
        6 | 7 => {
            let home = if t.random.once_in(2) { t.random.below(pool.deques + 2).to_string() } else { value };
            call!(t, "poke-node {slot} home {home}")
        }
        8 => call!(t, "poke-node {slot} element {}", t.random.edge()),
        9 => call!(t, "poke-deque {at} head {value}"),
        10 => call!(t, "poke-deque {at} tail {value}"),
        11 => call!(t, "poke-deque {at} length {}", t.random.below(pool.nodes + 2)),
        12 => call!(t, "poke-deque {at} cursor {value}"),
        13 => call!(t, "poke-deque {at} cursor end"),
        14 => call!(t, "poke-free {value}"),
        _ => {
            let odd = [
                "poke-node 0 element -",
                "poke-deque 0 length -",
                "poke-node 0 bucket 1",
                "poke-deque 0 next 1",
                "poke-free end",
                "poke-free",
                "poke-node 0 next",
                "poke-deque 0 length 18446744073709551615",
            ];
            let odd = t.random.pick(&odd);
            call!(t, "{odd}")
        }
    };
}
