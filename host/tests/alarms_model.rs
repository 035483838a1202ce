//! Random calls of alarms beside a model that keeps them in a list and rings them by one sentence: an alarm rings at
//! the first advance that is read to its end, goes to its deadline or later (the reading at arming, where that is the
//! later) and enters a later tick than the one it started in. There are 50 rounds of 2,000 calls, or as many rounds as
//! JUOPMORIN_ROUNDS says.

#[path = "common/random.rs"]
mod random;

use juopmorin::alarms::{Expired, Key};
use juopmorin::time::{nanoseconds, since_origin, TICK_NS};
use juopmorin::{Alarms, Refusal};
use random::Random;
use std::time::Duration;

const ROUNDS: usize = 50;
const CALLS: usize = 2_000;
const MOST_ROOM: u64 = 20;

/// In so many rounds everything has happened often; in fewer, something may not have.
const ENOUGH: usize = 4;

/// An alarm of the model.
#[derive(Clone, Debug, PartialEq)]
struct Kept {
    rings: u64,
    alarm: Expired<u64>,
}

/// What must be so.
#[derive(Default)]
struct Model {
    reading: u64,
    kept: Vec<Kept>,
}

impl Model {
    fn at(&self, key: &Key) -> Option<usize> {
        self.kept.iter().position(|kept| kept.alarm.key == *key)
    }

    /// When an alarm that is armed now rings at the earliest.
    fn rings(&self, deadline: Duration) -> u64 {
        nanoseconds(deadline).max(self.reading)
    }

    fn rings_at(&self, kept: &Kept, now: u64) -> bool {
        now / TICK_NS > self.reading / TICK_NS && kept.rings <= now
    }

    fn count_ringing(&self, now: u64) -> usize {
        self.kept.iter().filter(|kept| self.rings_at(kept, now)).count()
    }

    fn next_due(&self) -> Option<Duration> {
        let smallest = self.kept.iter().map(|kept| kept.rings).min()?;
        let tick = (u128::from(self.reading / TICK_NS) + 1) * u128::from(TICK_NS);
        u64::try_from(tick).ok().map(|tick| since_origin(smallest.max(tick)))
    }
}

/// How often each thing happened that the test is about.
#[derive(Default, Debug)]
struct Seen {
    calls: usize,
    rung: usize,
    rung_from_above: usize,
    late: usize,
    full: usize,
    stale: usize,
    steps_back: usize,
    dropped_early: usize,
    forgotten: usize,
    cleared: usize,
    next_due_tried: usize,
}

impl Seen {
    fn least(&self) -> usize {
        let counts = [
            self.rung,
            self.rung_from_above,
            self.late,
            self.full,
            self.stale,
            self.steps_back,
            self.dropped_early,
            self.forgotten,
            self.cleared,
            self.next_due_tried,
        ];
        counts.into_iter().min().unwrap_or(0)
    }
}

/// The alarms, the model, and every key that was ever given.
struct Round {
    random: Random,
    /// Times have up to so many bits.
    bits: u32,
    alarms: Alarms<u64>,
    model: Model,
    keys: Vec<Key>,
    values: u64,
}

impl Round {
    fn new(seed: u64) -> Self {
        let mut random = Random(seed.wrapping_mul(0x9e37_79b9_7f4a_7c15) | 1);
        let room = 1 + random.next() % MOST_ROOM;
        let bits = 32 + (random.next() % 33) as u32;
        let alarms = Alarms::with_room(room as usize).expect("in range");
        Self { random, bits, alarms, model: Model::default(), keys: Vec::new(), values: 0 }
    }

    fn below(&mut self, limit: u64) -> u64 {
        self.random.next() % limit
    }

    /// A time of this round's size, near the reading, at a tick's start, or at a level's edge.
    fn time(&mut self) -> u64 {
        let any = self.random.any_size() >> (64 - self.bits);
        let reading = self.model.reading;
        match self.below(6) {
            0 => any,
            1 => reading.saturating_add(any),
            2 => reading.saturating_add(self.below(4 * TICK_NS)),
            3 => reading.saturating_sub(self.below(100 * TICK_NS)),
            4 => (reading / TICK_NS).saturating_add(self.below(70)).saturating_mul(TICK_NS),
            _ => {
                let edge = 1u64 << (30 + self.below(u64::from(self.bits) - 30));
                reading.saturating_add(edge).saturating_sub(self.below(2))
            }
        }
    }

    fn deadline(&mut self) -> Duration {
        match self.below(40) {
            0 => since_origin(u64::MAX) * 3,
            _ => since_origin(self.time()),
        }
    }

    /// A key that was given at some time; more often than not one of the last.
    fn key(&mut self) -> Option<Key> {
        let among = match self.below(4) {
            0 => self.keys.len(),
            _ => self.keys.len().min(self.alarms.capacity()),
        };
        let back = self.random.next() as usize % among.max(1);
        self.keys.iter().rev().nth(back).copied()
    }

    fn insert(&mut self, seen: &mut Seen) {
        let deadline = self.deadline();
        self.values += 1;
        let value = self.values;
        match self.alarms.insert(value, deadline) {
            Ok(key) => {
                assert!(!self.keys.contains(&key), "{key:?} was given before");
                self.keys.push(key);
                let rings = self.model.rings(deadline);
                seen.late += usize::from(nanoseconds(deadline) < self.model.reading);
                self.model.kept.push(Kept { rings, alarm: Expired { key, deadline, value } });
                assert!(self.model.kept.len() <= self.alarms.capacity());
            }
            Err(error) => {
                assert_eq!((error.value, error.refusal), (value, Refusal::NoFreeSlot));
                assert_eq!(self.model.kept.len(), self.alarms.capacity());
                seen.full += 1;
            }
        }
    }

    fn remove(&mut self, seen: &mut Seen) {
        let Some(key) = self.key() else { return };
        let at = self.model.at(&key);
        seen.stale += usize::from(at.is_none());
        let value = at.map(|at| self.model.kept.remove(at).alarm.value);
        assert_eq!(self.alarms.get(&key).copied(), value);
        assert_eq!(self.alarms.remove(&key), value);
    }

    fn reset(&mut self, seen: &mut Seen) {
        let Some(key) = self.key() else { return };
        let deadline = self.deadline();
        let rings = self.model.rings(deadline);
        let at = self.model.at(&key);
        seen.stale += usize::from(at.is_none());
        let former = at.map(|at| {
            let kept = &mut self.model.kept[at];
            kept.rings = rings;
            std::mem::replace(&mut kept.alarm.deadline, deadline)
        });
        assert_eq!(self.alarms.reset(&key, deadline), former);
    }

    fn advance(&mut self, seen: &mut Seen) {
        let now = match self.below(3) {
            0 => self.alarms.next_due().map_or(0, nanoseconds),
            _ => self.time(),
        };
        let most = if self.below(3) == 0 { self.below(4) as usize } else { usize::MAX };
        let forget = self.below(4) == 0;
        seen.steps_back += usize::from(now < self.model.reading);
        let due = self.model.count_ringing(now);

        let mut advance = self.alarms.advance(since_origin(now));
        let rung: Vec<_> = advance.by_ref().take(most).collect();
        let ended = rung.len() < most;
        if forget {
            std::mem::forget(advance);
        } else {
            drop(advance);
        }

        assert_eq!(rung.len(), due.min(most), "from {} to {now}", self.model.reading);
        for alarm in rung {
            let at = self.model.at(&alarm.key).expect("it was armed");
            let kept = self.model.kept.swap_remove(at);
            assert_eq!(alarm, kept.alarm);
            assert!(self.model.rings_at(&kept, now), "{kept:?} from {} to {now}", self.model.reading);
            seen.rung += 1;
            seen.rung_from_above += usize::from(kept.rings.saturating_sub(self.model.reading) >= 64 * TICK_NS);
        }
        if ended {
            self.model.reading = now;
        } else {
            seen.dropped_early += usize::from(due > most);
            seen.forgotten += usize::from(forget);
        }
    }

    fn clear(&mut self, seen: &mut Seen) {
        self.alarms.clear();
        self.model.kept.clear();
        seen.cleared += 1;
    }

    /// That `next_due` is the least time an advance to which hands something out.
    fn try_next_due(&self, seen: &mut Seen) {
        let Some(due) = self.alarms.next_due() else {
            assert_eq!(self.alarms.clone().advance(Duration::MAX).count(), 0);
            return;
        };
        assert_eq!(self.alarms.clone().advance(due - Duration::from_nanos(1)).count(), 0);
        assert_ne!(self.alarms.clone().advance(due).count(), 0);
        seen.next_due_tried += 1;
    }

    fn call(&mut self, seen: &mut Seen) {
        match self.below(100) {
            0..=44 => self.insert(seen),
            45..=54 => self.remove(seen),
            55..=69 => self.reset(seen),
            70..=93 => self.advance(seen),
            94..=98 => self.try_next_due(seen),
            _ => self.clear(seen),
        }
        seen.calls += 1;
        assert_eq!(self.alarms.reading(), since_origin(self.model.reading));
        assert_eq!(self.alarms.len(), self.model.kept.len());
        assert_eq!(self.alarms.is_empty(), self.model.kept.is_empty());
        assert_eq!(self.alarms.next_due(), self.model.next_due());
    }
}

fn rounds() -> usize {
    std::env::var("JUOPMORIN_ROUNDS").map_or(ROUNDS, |rounds| rounds.parse().expect("a number of rounds"))
}

#[test]
fn random_calls_are_answered_as_the_sentence_says() {
    let mut seen = Seen::default();
    for seed in 1..=rounds() {
        let mut round = Round::new(seed as u64);
        for _ in 0..CALLS {
            round.call(&mut seen);
        }
    }
    println!("{seen:?}");
    assert_eq!(seen.calls, rounds() * CALLS);
    assert!(rounds() < ENOUGH || seen.least() >= 4 * rounds(), "too little happened: {seen:?}");
}
