//! The sketch's workloads on the Rust.

use crate::common::frequency_sketch::FrequencySketch;
use crate::lines::digest;
use crate::Numbers;

fn sketch(words: u64) -> FrequencySketch {
    let mut sketch = FrequencySketch::default();
    sketch.ensure_capacity(words as u32);
    sketch
}

fn increase(words: u64, calls: u64, numbers: &mut Numbers) -> FrequencySketch {
    let mut sketch = sketch(words);
    for _ in 0..calls {
        sketch.increment(numbers.next());
    }
    sketch
}

fn estimate(words: u64, calls: u64, numbers: &mut Numbers) -> u64 {
    let sketch = increase(words, 8 * words, numbers);
    let mut sum = 0u64;
    for _ in 0..calls {
        sum = sum.wrapping_add(u64::from(sketch.frequency(numbers.next())));
    }
    sum
}

fn index(words: u64, calls: u64, numbers: &mut Numbers) -> u64 {
    let sketch = sketch(words);
    let mut sum = 0u64;
    for i in 0..calls {
        sum = sum.wrapping_add(sketch.place(numbers.next(), (i % 4) as u8) as u64);
    }
    sum
}

pub fn run(workload: &str, words: u64, calls: u64, mut numbers: Numbers) -> Option<u64> {
    if !words.is_power_of_two() || words > 65_536 {
        return None;
    }
    match workload {
        "increase" => Some(digest(increase(words, calls, &mut numbers).numbers())),
        "estimate" => Some(estimate(words, calls, &mut numbers)),
        "index" => Some(index(words, calls, &mut numbers)),
        _ => None,
    }
}
