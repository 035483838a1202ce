//! The sketch, on single counters. Where the Rust's overflow check would trip the size is 0, as the rules say.

use crate::lines::{digest, number, ok, refused, Module};

const MOST: u64 = 65_536;
const SEEDS: [u64; 4] = [0xc3a5c85c97cb3127, 0xb492b66fbe98f273, 0x9ae16a3b2f90404f, 0xcbf29ce484222325];

struct Lent {
    table: Vec<u64>,
    used: u64,
    sample: u64,
    size: u64,
}

#[derive(Default)]
pub struct Sketch {
    lent: Option<Lent>,
}

/// x = (hash + S) x S, then x + floor(x / 2^32), all modulo 2^64, modulo the length.
fn place(hash: u64, depth: usize, length: u64) -> u64 {
    let whole = 1u128 << 64;
    let seed = u128::from(SEEDS[depth]);
    let x = (u128::from(hash) + seed) % whole * seed % whole;
    ((x + x / (1 << 32)) % whole % u128::from(length)) as u64
}

fn counter(word: u64, k: u64) -> u64 {
    word / (1 << (4 * k)) % 16
}

/// Table words for a capacity.
fn words_for(capacity: u64) -> u64 {
    if capacity == 0 {
        return 1;
    }
    (0..=16).map(|k| 1 << k).find(|words| *words >= capacity).unwrap_or(u64::MAX)
}

impl Lent {
    fn sound(&self) -> bool {
        if self.used == 0 {
            return self.sample == 0 && self.size == 0;
        }
        let capacity = self.sample / 10;
        self.used <= self.table.len() as u64
            && self.sample % 10 == 0
            && (1..=MOST).contains(&capacity)
            && words_for(capacity) == self.used
            && self.size < self.sample
    }

    fn ensure(&mut self, capacity: u64) -> String {
        if capacity > MOST {
            return refused(15);
        }
        let words = words_for(capacity);
        if words <= self.used {
            return ok();
        }
        if words > self.table.len() as u64 {
            return refused(14);
        }
        self.table[..words as usize].fill(0);
        self.used = words;
        self.sample = if capacity == 0 { 10 } else { 10 * capacity };
        ok()
    }

    /// Word and counter of a hash at a depth.
    fn at(&self, hash: u64, depth: usize) -> (usize, u64) {
        (place(hash, depth, self.used) as usize, 4 * (hash % 4) + depth as u64)
    }

    fn estimate(&self, hash: u64) -> u64 {
        if self.used == 0 {
            return 0;
        }
        let counts = (0..4).map(|depth| self.at(hash, depth)).map(|(word, k)| counter(self.table[word], k));
        counts.min().unwrap_or(0)
    }

    fn increase(&mut self, hash: u64) -> String {
        if self.used == 0 {
            return ok();
        }
        let mut rose = false;
        for depth in 0..4 {
            let (word, k) = self.at(hash, depth);
            if counter(self.table[word], k) < 15 {
                self.table[word] += 1 << (4 * k);
                rose = true;
            }
        }
        self.size += u64::from(rose);
        if rose && self.size >= self.sample {
            self.age();
        }
        ok()
    }

    fn age(&mut self) {
        let mut odd = 0;
        for word in &mut self.table[..self.used as usize] {
            let counters: Vec<u64> = (0..16).map(|k| counter(*word, k)).collect();
            odd += counters.iter().filter(|count| *count % 2 == 1).count() as u64;
            *word = counters.iter().rev().fold(0, |word, count| word * 16 + count / 2);
        }
        self.size = (self.size / 2).saturating_sub(odd / 4);
    }
}

fn index(hash: u64, depth: u64, mask: u64) -> u64 {
    let length = u128::from(mask) + 1;
    if depth > 3 || !(0..=16).any(|k| length == 1 << k) {
        return MOST;
    }
    place(hash, depth as usize, length as u64)
}

impl Module for Sketch {
    fn call(&mut self, fields: &[&str]) -> Option<String> {
        let numbers: Vec<u64> = fields[1..].iter().map(|f| number(f)).collect::<Option<_>>()?;
        match (fields[0], &numbers[..]) {
            ("index", &[hash, depth, mask]) => return Some(format!("index {}", index(hash, depth, mask))),
            ("lend", &[words]) if words <= MOST => {
                self.lent = Some(Lent { table: vec![0; words as usize], used: 0, sample: 0, size: 0 });
                return Some(ok());
            }
            _ => (),
        }
        let lent = self.lent.as_mut()?;
        match (fields[0], &numbers[..]) {
            ("ensure" | "increase" | "estimate", [_]) if !lent.sound() => Some(refused(4)),
            ("ensure", &[capacity]) => Some(lent.ensure(capacity)),
            ("increase", &[hash]) => Some(lent.increase(hash)),
            ("estimate", &[hash]) => Some(format!("estimate {}", lent.estimate(hash))),
            ("word", &[i]) => lent.table.get(usize::try_from(i).ok()?).map(|word| format!("word {word}")),
            ("record", []) => Some(format!("record {} {} {}", lent.used, lent.sample, lent.size)),
            ("digest", []) => {
                let record = [lent.used, lent.sample, lent.size];
                Some(format!("digest {}", digest(lent.table.iter().copied().chain(record))))
            }
            ("poke-word", &[i, value]) => {
                *lent.table.get_mut(usize::try_from(i).ok()?)? = value;
                Some(ok())
            }
            ("poke-record", &[used, sample, size]) => {
                (lent.used, lent.sample, lent.size) = (used, sample, size);
                Some(ok())
            }
            _ => None,
        }
    }
}
