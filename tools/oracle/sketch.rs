//! The sketch: the Rust's table stands for the used part of the lent one; the words beyond are kept beside it.

use crate::lines::{digest, number, ok, refused, Module};
use crate::trips;

/// The longest table, and the largest capacity.
const MOST: u64 = 65_536;

#[allow(dead_code)]
mod source {
    include!(concat!(env!("RUST_SOURCE"), "/src/common/frequency_sketch.rs"));

    /// The Rust's private fields, for reading and poking.
    impl FrequencySketch {
        pub fn from_parts(words: &[u64], sample: u64, size: u64) -> Self {
            Self {
                sample_size: sample as u32,
                table_mask: (words.len() as u64).saturating_sub(1),
                table: words.into(),
                size: size as u32,
            }
        }

        pub fn words(&self) -> &[u64] {
            &self.table
        }

        pub fn words_mut(&mut self) -> &mut [u64] {
            &mut self.table
        }

        pub fn record(&self) -> [u64; 3] {
            [self.table.len() as u64, u64::from(self.sample_size), u64::from(self.size)]
        }

        pub fn place(hash: u64, depth: u64, mask: u64) -> usize {
            Self { table_mask: mask, ..Self::default() }.index_of(hash, depth as u8)
        }
    }
}

use source::FrequencySketch;

/// Table words for a capacity, as 01 says: 1 for capacity 0, else the next power of two.
fn words_for(capacity: u64) -> u64 {
    let mut words = 1;
    while words < capacity {
        words *= 2;
    }
    words
}

/// Row 4 of 01's refusals for the sketch, by trying every capacity.
fn sound(record: [u64; 3], lent: usize) -> bool {
    let [used, sample, size] = record;
    if used == 0 {
        return sample == 0 && size == 0;
    }
    let power = (0..=16).any(|k| used == 1 << k);
    let fits = used <= lent as u64;
    let capacity = || (1..=MOST).find(|c| 10 * c == sample && words_for(*c) == used);
    power && fits && capacity().is_some() && size < sample
}

/// What is lent.
enum Lent {
    /// A sound sketch: the Rust's own, and the words beyond its table.
    Sound(FrequencySketch, Vec<u64>),
    /// A poked record that is not sound, and the whole table.
    Damaged([u64; 3], Vec<u64>),
    /// The overflow check tripped: nothing is known until the next lend.
    Tripped,
}

#[derive(Default)]
pub struct Sketch {
    lent: Option<Lent>,
}

impl Lent {
    fn new(record: [u64; 3], table: Vec<u64>) -> Self {
        if !sound(record, table.len()) {
            return Self::Damaged(record, table);
        }
        let [used, sample, size] = record;
        let (words, rest) = table.split_at(used as usize);
        Self::Sound(FrequencySketch::from_parts(words, sample, size), rest.to_vec())
    }

    /// The whole lent table.
    fn table(&self) -> Vec<u64> {
        match self {
            Self::Sound(rust, rest) => [rust.words(), rest].concat(),
            Self::Damaged(_, table) => table.clone(),
            Self::Tripped => Vec::new(),
        }
    }

    fn record(&self) -> [u64; 3] {
        match self {
            Self::Sound(rust, _) => rust.record(),
            Self::Damaged(record, _) => *record,
            Self::Tripped => [0; 3],
        }
    }

    /// Word i of the lent table.
    fn word(&mut self, i: u64) -> Option<&mut u64> {
        let i = usize::try_from(i).ok()?;
        match self {
            Self::Sound(rust, rest) => rust.words_mut().iter_mut().chain(rest).nth(i),
            Self::Damaged(_, table) => table.get_mut(i),
            Self::Tripped => None,
        }
    }

    fn ensure(&mut self, capacity: u64) -> String {
        let Self::Sound(rust, rest) = self else { return refused(4) };
        if capacity > MOST {
            return refused(15);
        }
        let used = rust.words().len();
        let wanted = words_for(capacity) as usize;
        if wanted > used && wanted > used + rest.len() {
            return refused(14);
        }
        rust.ensure_capacity(capacity as u32);
        rest.drain(..rust.words().len() - used);
        ok()
    }

    fn increase(&mut self, hash: u64) -> String {
        let Self::Sound(rust, _) = self else { return refused(4) };
        if trips::watch(|| rust.increment(hash)).is_none() {
            *self = Self::Tripped;
            return "tripped".to_string();
        }
        ok()
    }

    fn estimate(&self, hash: u64) -> String {
        match self {
            Self::Sound(rust, _) => format!("estimate {}", rust.frequency(hash)),
            _ => refused(4),
        }
    }

    fn digest(&self) -> u64 {
        match self {
            Self::Sound(rust, rest) => digest(rust.words().iter().chain(rest).copied().chain(self.record())),
            _ => digest(self.table().into_iter().chain(self.record())),
        }
    }
}

/// The host's function: the Rust's index where 01 gives one.
fn index(hash: u64, depth: u64, mask: u64) -> usize {
    let length = (0..=16).any(|k| mask == (1 << k) - 1);
    if depth > 3 || !length {
        return MOST as usize;
    }
    FrequencySketch::place(hash, depth, mask)
}

impl Module for Sketch {
    fn call(&mut self, fields: &[&str]) -> Option<String> {
        let numbers: Vec<u64> = fields[1..].iter().map(|f| number(f)).collect::<Option<_>>()?;
        match (fields[0], &numbers[..]) {
            ("index", &[hash, depth, mask]) => return Some(format!("index {}", index(hash, depth, mask))),
            ("lend", &[words]) if words <= MOST => {
                self.lent = Some(Lent::new([0; 3], vec![0; words as usize]));
                return Some(ok());
            }
            ("ensure" | "increase" | "estimate" | "word", [_]) | ("record" | "digest", []) => (),
            ("poke-word", [_, _]) | ("poke-record", [_, _, _]) => (),
            _ => return None,
        }
        let lent = self.lent.as_mut()?;
        if matches!(lent, Lent::Tripped) {
            return Some("tripped".to_string());
        }
        match (fields[0], &numbers[..]) {
            ("ensure", &[capacity]) => Some(lent.ensure(capacity)),
            ("increase", &[hash]) => Some(lent.increase(hash)),
            ("estimate", &[hash]) => Some(lent.estimate(hash)),
            ("word", &[i]) => lent.word(i).map(|word| format!("word {word}")),
            ("record", _) => Some(lent.record()).map(|[used, sample, size]| format!("record {used} {sample} {size}")),
            ("digest", _) => Some(format!("digest {}", lent.digest())),
            ("poke-word", &[i, value]) => lent.word(i).map(|word| *word = value).map(|()| ok()),
            ("poke-record", &[used, sample, size]) => {
                *lent = Lent::new([used, sample, size], lent.table());
                Some(ok())
            }
            _ => None,
        }
    }
}
