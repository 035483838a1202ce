//! Traces for the placement function alone: every pair of edges, then random pairs.

use crate::random::Random;
use crate::trace::Trace;
use crate::wheel::{near, time};
use crate::Source;

/// Shift and bucket count of each level.
const LEVELS: [(u32, u64); 5] = [(30, 64), (36, 64), (42, 32), (47, 4), (49, 1)];

/// Pairs in one session.
const PAIRS: u64 = 1000;

pub struct Places {
    edges: Vec<u64>,
    systematic: u64,
    random: u64,
}

impl Places {
    /// Each tick of a level's first turn and the first ones past it, a nanosecond before and after, and the last times.
    pub fn new() -> Self {
        let mut edges = vec![0, 1, 2, u64::MAX - 1, u64::MAX];
        for (shift, count) in LEVELS {
            let ticks = (1..=count + 2).map(|tick| tick << shift);
            edges.extend(ticks.flat_map(|time| [time - 1, time, time + 1]));
            edges.extend([u64::MAX - (1 << shift), u64::MAX - (1 << shift) + 1]);
        }
        edges.sort_unstable();
        edges.dedup();
        Self { edges, systematic: 0, random: 0 }
    }

    fn pair(&mut self, r: &mut Random) -> (u64, u64) {
        let count = self.edges.len() as u64;
        if self.systematic < count * count {
            let (a, b) = (self.systematic / count, self.systematic % count);
            self.systematic += 1;
            return (self.edges[a as usize], self.edges[b as usize]);
        }
        self.random += 1;
        match r.below(3) {
            0 => (r.bits() >> r.below(64), r.bits() >> r.below(64)),
            1 => (time(r), time(r)),
            _ => {
                let reading = if r.once_in(2) { time(r) } else { r.bits() };
                (reading, near(r, reading))
            }
        }
    }
}

impl Source for Places {
    fn session(&mut self, t: &mut Trace) {
        for _ in 0..PAIRS {
            let (reading, deadline) = self.pair(&mut t.random);
            call!(t, "place {reading} {deadline}");
        }
    }

    fn summary(&self) -> String {
        let count = self.edges.len() as u64;
        format!("{} of {} pairs of edges, {} random pairs", self.systematic, count * count, self.random)
    }
}
