//! Traces for the sketch.

use crate::trace::Trace;
use crate::Source;

const MOST: u64 = 65_536;

/// Over this many lines every capacity from 0 to 65,536 comes up.
const SWEEP: u64 = 950_000;

#[derive(Default)]
pub struct Sketches {
    swept: u64,
    lines: u64,
}

impl Source for Sketches {
    fn session(&mut self, t: &mut Trace) {
        let before = t.lines;
        match t.random.below(16) {
            0..=4 => aging(t),
            5 | 6 => growing(t),
            7 | 8 => colliding(t),
            9 => near_the_sample(t),
            10 => tripping(t),
            11 => odd_tables(t),
            12 | 13 => damage(t),
            _ => places(t),
        }
        self.lines += t.lines - before;
        while self.swept * SWEEP < self.lines * (MOST + 1) && self.swept <= MOST {
            let before = t.lines;
            self.sweep(t);
            self.lines += t.lines - before;
        }
    }

    fn summary(&self) -> String {
        format!("capacities swept: {} of {}", self.swept.min(MOST + 1), MOST + 1)
    }
}

impl Sketches {
    /// The next capacity of the sweep, on an unused sketch with a table that just fits or is longer; at times first
    /// with one that is a word short, or with whatever was lent before.
    fn sweep(&mut self, t: &mut Trace) {
        let capacity = self.swept * 24_421 % (MOST + 1);
        self.swept += 1;
        let words = words_for(capacity);
        if t.random.once_in(4) {
            match t.random.below(2) {
                0 => call!(t, "lend {}", words - 1),
                _ => call!(t, "poke-record 0 0 0"),
            }
            call!(t, "ensure {capacity}");
            call!(t, "record");
        }
        match t.random.below(4) {
            0 => call!(t, "lend {MOST}"),
            1 => call!(t, "lend {}", t.random.range(words, MOST)),
            _ => call!(t, "lend {words}"),
        }
        call!(t, "ensure {capacity}");
        call!(t, "record");
        if t.random.once_in(3) {
            let hash = t.random.bits();
            call!(t, "increase {hash}");
            call!(t, "estimate {hash}");
        }
        if t.random.once_in(1 + words / 64) {
            call!(t, "digest");
        }
    }
}

fn words_for(capacity: u64) -> u64 {
    capacity.max(1).next_power_of_two()
}

const SEEDS: [u64; 4] = [0xc3a5c85c97cb3127, 0xb492b66fbe98f273, 0x9ae16a3b2f90404f, 0xcbf29ce484222325];

/// The word of a hash, worked out by hand to find hashes that collide.
fn place(hash: u64, depth: usize, words: u64) -> u64 {
    let x = hash.wrapping_add(SEEDS[depth]).wrapping_mul(SEEDS[depth]);
    x.wrapping_add(x >> 32) % words
}

/// Where a session takes its hashes from.
enum Hashes {
    Any,
    Edges,
    Below(u64),
    Steps(u64, u32, u64),
    Listed(Vec<u64>),
}

impl Hashes {
    fn choose(t: &mut Trace) -> Self {
        match t.random.below(8) {
            0 | 1 => Self::Any,
            2 => Self::Edges,
            3 => Self::Below(t.random.range(1, 4)),
            4 => Self::Below(t.random.pick(&[8, 20, 100, 1000])),
            5 => Self::Steps(t.random.bits(), t.random.range(0, 62) as u32, t.random.pick(&[2, 3, 16, 50])),
            6 => Self::Listed((0..t.random.range(1, 30)).map(|_| t.random.bits()).collect()),
            _ => Self::Steps(t.random.below(4), 2, t.random.pick(&[4, 16, 300])),
        }
    }

    fn next(&self, t: &mut Trace) -> u64 {
        match self {
            Self::Any => t.random.bits(),
            Self::Edges => t.random.edge(),
            Self::Below(limit) => t.random.below(*limit),
            Self::Steps(base, shift, count) => base.wrapping_add(t.random.below(*count) << shift),
            Self::Listed(list) => t.random.pick(list),
        }
    }
}

/// Increases with a look at the state now and then.
fn increases(t: &mut Trace, hashes: &Hashes, count: u64, lent: u64) {
    for _ in 0..count {
        let hash = hashes.next(t);
        call!(t, "increase {hash}");
        match t.random.below(12) {
            0 | 1 => call!(t, "estimate {hash}"),
            2 => {
                let other = hashes.next(t);
                call!(t, "estimate {other}");
            }
            3 => call!(t, "record"),
            4 => call!(t, "word {}", t.random.below(lent + 2)),
            5 if t.random.once_in(1 + lent / 32) => call!(t, "digest"),
            _ => (),
        }
    }
    call!(t, "record");
    if t.random.once_in(1 + lent / 1024) {
        call!(t, "digest");
    }
}

/// A small sketch through many agings; the capacities that reach the listed difference among them.
fn aging(t: &mut Trace) {
    let tripping = [3, 5, 5, 5, 6, 9, 10, 11, 12, 17, 18, 20, 33, 65];
    let capacity = match t.random.below(3) {
        0 => t.random.below(17),
        1 => t.random.pick(&tripping),
        _ => t.random.below(130),
    };
    let lent = words_for(capacity) + t.random.pick(&[0, 0, 1, 5]);
    call!(t, "lend {lent}");
    call!(t, "ensure {capacity}");
    let hashes = Hashes::choose(t);
    let sample = 10 * capacity.max(1);
    let count = (sample * t.random.range(1, 12)).clamp(20, 2500);
    increases(t, &hashes, count, lent);
}

/// From an empty sketch to its first aging with as many odd counters as hashes can be found for: the listed difference.
fn tripping(t: &mut Trace) {
    let capacity = t.random.pick(&[3, 3, 5, 5, 5, 6, 6, 9, 10, 11, 12, 17, 18, 20, 33, 65]);
    let words = words_for(capacity);
    call!(t, "lend {words}");
    call!(t, "ensure {capacity}");
    let mut odd = vec![false; 16 * words as usize];
    let counters = |hash: u64| (0..4).map(move |i| (place(hash, i, words) * 16 + 4 * (hash % 4)) as usize + i);
    for left in (1..=10 * capacity).rev() {
        if left > 4 * words {
            call!(t, "increase {}", (left - 1) / 2);
            continue;
        }
        let gain = |hash: u64| counters(hash).filter(|c| !odd[*c]).count();
        let mut best = t.random.bits();
        for _ in 0..20_000 {
            let hash = t.random.bits();
            if gain(best) == 4 {
                break;
            }
            best = if gain(hash) > gain(best) { hash } else { best };
        }
        counters(best).for_each(|c| odd[c] = !odd[c]);
        call!(t, "increase {best}");
        if left % 8 == 0 {
            call!(t, "record");
        }
    }
    call!(t, "digest");
}

/// Growth in the middle, with capacities below what is there in between.
fn growing(t: &mut Trace) {
    let lent = t.random.pick(&[1, 7, 64, 100, 1024, 5000, MOST]);
    call!(t, "lend {lent}");
    call!(t, "increase {}", t.random.bits());
    call!(t, "estimate {}", t.random.bits());
    let hashes = Hashes::choose(t);
    let mut capacity = t.random.below(4);
    while capacity <= lent * 3 && capacity <= MOST + 2 {
        call!(t, "ensure {capacity}");
        let count = t.random.below(50);
        increases(t, &hashes, count, lent);
        call!(t, "ensure {}", t.random.below(capacity + 1));
        call!(t, "record");
        capacity += t.random.range(1, 1 + capacity * 2);
    }
}

/// Hashes that share a word at one depth, or the word and the counter.
fn colliding(t: &mut Trace) {
    let capacity = t.random.pick(&[2, 4, 8, 16, 64, 200, 256]);
    let words = words_for(capacity);
    let depth = t.random.below(4) as usize;
    let target = t.random.below(words);
    let same_counter = t.random.once_in(2);
    let mut list = Vec::new();
    while list.len() < 12 {
        let hash = t.random.bits();
        if place(hash, depth, words) == target && (!same_counter || hash % 4 == 3) {
            list.push(hash);
        }
    }
    call!(t, "lend {words}");
    call!(t, "ensure {capacity}");
    let count = t.random.range(50, 400);
    increases(t, &Hashes::Listed(list), count, words);
}

/// A poked size close under the sample, so that large tables age too; poked words of every kind.
fn near_the_sample(t: &mut Trace) {
    let words = 1u64 << t.random.below(17);
    let lent = (words + t.random.pick(&[0, 0, 1, 3])).min(MOST);
    let capacity = t.random.range(words / 2 + 1, words).min(words);
    call!(t, "lend {lent}");
    call!(t, "ensure {capacity}");
    let patterns = [
        0,
        u64::MAX,
        0x1111111111111111,
        0x7777777777777777,
        0x0123456789abcdef,
        0xeeeeeeeeeeeeeeee,
        0xf0f0f0f0f0f0f0f0,
    ];
    let one = t.random.pick(&patterns);
    for i in 0..lent.min(80) {
        let at = if lent <= 80 { i } else { t.random.below(lent) };
        let value = match t.random.below(4) {
            0 => t.random.bits(),
            _ => one,
        };
        call!(t, "poke-word {at} {value}");
    }
    for _ in 0..t.random.range(1, 4) {
        let size = (10 * capacity).saturating_sub(t.random.range(1, 4));
        call!(t, "poke-record {words} {} {size}", 10 * capacity);
        let hashes = Hashes::choose(t);
        increases(t, &hashes, 6, lent);
        call!(t, "digest");
    }
}

/// Tables of length 0, 1 and odd lengths, and the refusals 14 and 15.
fn odd_tables(t: &mut Trace) {
    let lent = match t.random.below(4) {
        0 => t.random.below(4),
        1 => t.random.below(1000),
        2 => (1 << t.random.below(17)) - 1,
        _ => t.random.pick(&[0, 1, MOST - 1, MOST, MOST + 1, MOST + 2, u64::MAX, 1 << 32]),
    };
    call!(t, "lend {lent}");
    for _ in 0..t.random.range(3, 20) {
        let capacity = match t.random.below(4) {
            0 => t.random.pick(&[
                0,
                1,
                MOST,
                MOST + 1,
                MOST + 2,
                70_000,
                1 << 30,
                1 << 32,
                (1 << 32) + 5,
                1 << 40,
                u64::MAX,
            ]),
            1 => t.random.edge(),
            2 => lent.saturating_add(t.random.below(3)),
            _ => t.random.below(2 * lent.min(MOST) + 2),
        };
        call!(t, "ensure {capacity}");
        call!(t, "record");
        let hash = t.random.edge();
        call!(t, "increase {hash}");
        call!(t, "estimate {hash}");
        call!(t, "word {}", t.random.edge());
        call!(t, "word {}", lent.saturating_sub(t.random.below(2)));
    }
    call!(t, "digest");
}

/// Poked records: at the edges of sound, and anything; every call on each.
fn damage(t: &mut Trace) {
    let lent = t.random.pick(&[0, 1, 2, 3, 4, 8, 9, 16, 63, 64, 65, 128]);
    call!(t, "lend {lent}");
    for _ in 0..t.random.range(5, 30) {
        let (used, sample, size) = damaged_record(t, lent);
        call!(t, "poke-record {used} {sample} {size}");
        if t.random.once_in(3) {
            call!(t, "poke-word {} {}", t.random.below(lent + 2), t.random.bits());
        }
        let capacity = t.random.pick(&[0, 1, 2, 5, 9, 64, 100, MOST, MOST + 1, u64::MAX]);
        let hash = t.random.bits();
        for _ in 0..t.random.range(1, 4) {
            match t.random.below(6) {
                0 | 1 => call!(t, "ensure {capacity}"),
                2 | 3 => call!(t, "increase {hash}"),
                4 => call!(t, "estimate {hash}"),
                _ => call!(t, "digest"),
            }
        }
        call!(t, "record");
    }
}

fn damaged_record(t: &mut Trace, lent: u64) -> (u64, u64, u64) {
    let power = 1u64 << t.random.below(8);
    let used = match t.random.below(10) {
        0 => t.random.edge(),
        1 => t.random.below(lent + 3),
        2 => 0,
        3 => t.random.pick(&[3, 6, 65_536, 131_072, u64::MAX]),
        _ => power,
    };
    let half = used / 2;
    let capacity = match t.random.below(8) {
        0 => half,
        1 => used.saturating_add(1),
        2 => 0,
        3 => half.saturating_add(1),
        _ => t.random.range(half.saturating_add(1).min(used), used),
    };
    let sample = match t.random.below(8) {
        0 => t.random.edge(),
        1 => capacity.wrapping_mul(10).wrapping_add(t.random.range(1, 9)),
        2 => capacity.wrapping_mul(10).wrapping_add(1 << 32),
        _ => capacity.wrapping_mul(10),
    };
    let size = match t.random.below(8) {
        0 => sample,
        1 => sample.saturating_add(1),
        2 => t.random.edge(),
        3 => 1 << 32,
        4 => sample.saturating_sub(1),
        5 => 0,
        _ => t.random.below(sample),
    };
    (used, sample, size)
}

/// The host's function.
fn places(t: &mut Trace) {
    for _ in 0..t.random.range(50, 300) {
        let hash = if t.random.once_in(3) { t.random.edge() } else { t.random.bits() };
        let depth = match t.random.below(8) {
            0 => t.random.pick(&[4, 5, 9, 255, 256, 257, 1 << 32, (1 << 32) + 1, 1 << 63, u64::MAX]),
            _ => t.random.below(4),
        };
        let mask = match t.random.below(8) {
            0 => t.random.edge(),
            1 => t.random.pick(&[
                (1 << 17) - 1,
                (1 << 18) - 1,
                (1 << 32) - 1,
                (1 << 48) - 1,
                (1 << 63) - 1,
                u64::MAX,
                MOST,
                65_534,
            ]),
            2 => t.random.below(70_000),
            _ => (1 << t.random.below(17)) - 1,
        };
        call!(t, "index {hash} {depth} {mask}");
    }
}
