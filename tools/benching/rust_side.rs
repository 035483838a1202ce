//! The Rust side of the benchmarks: the ported Rust, unchanged, in a plain release build.
//!
//!   rust_side MODULE    standard input has lines `WORKLOAD SIZE CALLS SEED`; each answers `digest D`

mod common;
mod deque;
#[path = "../common/lines.rs"]
#[allow(dead_code)]
mod lines;
mod sketch;
mod wheel;

use lines::{number, Module};
use std::io;

/// The workload's numbers.
pub struct Numbers(u64);

impl Numbers {
    fn new(seed: u64) -> Self {
        Self(seed.max(1))
    }

    #[inline]
    pub fn next(&mut self) -> u64 {
        self.0 ^= self.0 << 13;
        self.0 ^= self.0 >> 7;
        self.0 ^= self.0 << 17;
        self.0
    }
}

struct Workloads(fn(&str, u64, u64, Numbers) -> Option<u64>);

impl Module for Workloads {
    fn call(&mut self, fields: &[&str]) -> Option<String> {
        let [workload, size, calls, seed] = fields else { return None };
        let numbers = Numbers::new(number(seed)?);
        let result = (self.0)(workload, number(size)?, number(calls)?, numbers)?;
        Some(format!("digest {result}"))
    }
}

fn main() {
    let module = std::env::args().nth(1).unwrap_or_default();
    let mut workloads = match module.as_str() {
        "sketch" => Workloads(sketch::run),
        "deque" => Workloads(deque::run),
        "wheel" => Workloads(wheel::run),
        _ => {
            eprintln!("usage: rust_side sketch|deque|wheel < WORKLOADS");
            std::process::exit(2);
        }
    };
    if let Err(error) = lines::answer_all(&mut workloads, io::stdin().lock(), io::stdout().lock()) {
        eprintln!("rust_side: {error}");
        std::process::exit(2);
    }
}
