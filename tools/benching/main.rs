//! Runs the same seeded workloads on two programs in turn and compares the times.
//!
//!   bench MODULE ROUNDS PROGRAM RUST
//!
//! A round runs both programs once as processes of their own, the order swapped from round to round. The rounds of the
//! workloads alternate too, so that a slow spell of the machine meets all of them. Times are processor time (user and
//! system), so that other work on the machine counts as little as can be.

use std::io::Write;
use std::process::{exit, Command, Stdio};

/// The system's record of used time: user and system time as seconds and microseconds, and 14 further counts.
#[repr(C)]
struct Usage {
    times: [i64; 4],
    counts: [i64; 14],
}

extern "C" {
    fn getrusage(who: i32, usage: *mut Usage) -> i32;
}

/// Processor seconds of all processes that were run and have ended.
fn used() -> f64 {
    const CHILDREN: i32 = -1;
    let mut usage = Usage { times: [0; 4], counts: [0; 14] };
    if unsafe { getrusage(CHILDREN, &mut usage) } != 0 {
        fail("the system does not tell the used time");
    }
    let [user, user_micros, system, system_micros] = usage.times.map(|n| n as f64);
    user + system + (user_micros + system_micros) / 1e6
}

fn fail(message: &str) -> ! {
    eprintln!("{message}");
    exit(2)
}

/// A workload: its name and the line that it is given to the programs as.
struct Workload {
    name: String,
    line: String,
    /// Where it has no counterpart in the Rust: over how much one call goes, times the calls.
    alone: Option<f64>,
    times: [Vec<f64>; 2],
    digest: Option<String>,
}

fn workload((kind, size, calls): (&str, u64, u64)) -> Workload {
    Workload {
        name: format!("{kind}-{size}"),
        line: format!("{kind} {size} {calls} 20261115\n"),
        alone: ["length", "count"].contains(&kind).then_some((size * calls) as f64),
        times: [Vec::new(), Vec::new()],
        digest: None,
    }
}

/// Sizes for about 0.3 seconds each on a machine of 2 GHz.
fn workloads(module: &str) -> Vec<Workload> {
    let sizes: &[(&str, u64, u64)] = match module {
        "sketch" => &[
            ("increase", 64, 32_000_000),
            ("increase", 4_096, 32_000_000),
            ("increase", 65_536, 32_000_000),
            ("estimate", 64, 40_000_000),
            ("estimate", 4_096, 40_000_000),
            ("estimate", 65_536, 40_000_000),
            ("index", 64, 120_000_000),
            ("index", 4_096, 120_000_000),
            ("index", 65_536, 120_000_000),
        ],
        "deque" => &[
            ("queue", 16, 15_000_000),
            ("queue", 4_096, 15_000_000),
            ("move", 16, 40_000_000),
            ("move", 4_096, 40_000_000),
            ("unlink", 16, 12_000_000),
            ("unlink", 4_096, 12_000_000),
            ("walk", 16, 300_000_000),
            ("walk", 4_096, 150_000_000),
            ("length", 16, 2_000_000),
            ("length", 256, 200_000),
            ("length", 4_096, 15_000),
        ],
        "wheel" => &[
            ("cancel", 229, 5_000_000),
            ("cancel", 4_096, 5_000_000),
            ("ticks", 229, 2_000_000),
            ("ticks", 4_096, 40_000),
            ("jumps", 229, 600_000),
            ("jumps", 4_096, 100_000),
            ("count", 166, 200_000),
            ("count", 512, 80_000),
            ("count", 4_096, 10_000),
        ],
        _ => fail(&format!("no benchmark for {module}")),
    };
    sizes.iter().copied().map(workload).collect()
}

/// A program and its arguments.
type Side<'a> = &'a [&'a str];

/// Seconds of one run and what it wrote.
fn run(side: Side, input: &str) -> (f64, String) {
    let program = side[0];
    let before = used();
    let mut child = Command::new(program)
        .args(&side[1..])
        .stdin(Stdio::piped())
        .stdout(Stdio::piped())
        .spawn()
        .unwrap_or_else(|e| fail(&format!("cannot run {program}: {e}")));
    // The pipe closes at the end of this statement; a program that has ended already shows below by its answer.
    let _ = child.stdin.take().map(|mut pipe| pipe.write_all(input.as_bytes()));
    let output = child.wait_with_output().unwrap_or_else(|e| fail(&format!("{program}: {e}")));
    let seconds = used() - before;
    if !output.status.success() {
        fail(&format!("{program} ended with {} on: {}", output.status, input.trim_end()));
    }
    (seconds, String::from_utf8_lossy(&output.stdout).trim_end().to_string())
}

fn round(workload: &mut Workload, sides: [Side; 2], swapped: bool) {
    let order: &[usize] = match (workload.alone, swapped) {
        (Some(_), _) => &[0],
        (None, false) => &[0, 1],
        (None, true) => &[1, 0],
    };
    for side in order {
        let (seconds, answer) = run(sides[*side], &workload.line);
        let expected = workload.digest.get_or_insert_with(|| answer.clone());
        if *expected != answer || !answer.starts_with("digest ") {
            let (name, program) = (&workload.name, sides[*side][0]);
            fail(&format!("digests differ on {name}: {program} answered '{answer}', expected '{expected}'"));
        }
        workload.times[*side].push(seconds);
    }
}

fn best(times: &[f64]) -> f64 {
    times.iter().copied().fold(f64::INFINITY, f64::min)
}

fn median(times: &[f64]) -> f64 {
    let mut sorted = times.to_vec();
    sorted.sort_by(f64::total_cmp);
    let half = sorted.len() / 2;
    if sorted.len() % 2 == 1 {
        sorted[half]
    } else {
        (sorted[half - 1] + sorted[half]) / 2.0
    }
}

fn row(w: &Workload) -> String {
    let [rattle, rust] = &w.times;
    let digest = w.digest.as_deref().unwrap_or_default().trim_start_matches("digest ");
    let (best_ratio, median_ratio) = (best(rattle) / best(rust), median(rattle) / median(rust));
    let (rattle, rust) = (best(rattle), best(rust));
    format!("| {} | {rattle:.3} | {rust:.3} | {best_ratio:.3} | {median_ratio:.3} | {digest} |", w.name)
}

fn report(workloads: &[Workload]) {
    println!("| Workload | Rattle best s | Rust best s | Ratio of bests | Ratio of medians | Digest |");
    println!("|---|---|---|---|---|---|");
    workloads.iter().filter(|w| w.alone.is_none()).for_each(|w| println!("{}", row(w)));
    println!();
    for w in workloads {
        match w.alone {
            None => println!("{} {:.3}", w.name, best(&w.times[0]) / best(&w.times[1])),
            Some(records) => println!("{} {:.3} ns per node", w.name, best(&w.times[0]) * 1e9 / records),
        }
    }
}

fn main() {
    let arguments: Vec<String> = std::env::args().skip(1).collect();
    let [module, rounds, program, rust] = &arguments[..] else {
        fail("usage: bench MODULE ROUNDS PROGRAM RUST");
    };
    let rounds: u64 = rounds.parse().ok().filter(|n| *n > 0).unwrap_or_else(|| fail("ROUNDS is not a number from 1"));
    let mut workloads = workloads(module);
    for at in 0..rounds {
        for workload in &mut workloads {
            round(workload, [&[program], &[rust, module]], at % 2 == 1);
        }
    }
    report(&workloads);
}
