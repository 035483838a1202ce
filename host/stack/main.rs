//! The smallest thread stack, in KiB, that each public call through the host runs in, at 4,096 records with all slots
//! armed but one.

use juopmorin::{Entry, Handle, Wheel, BUCKETS};
use std::process::{Command, Stdio};

const RECORDS: usize = 4_096;
const LAST: usize = RECORDS - BUCKETS - 1;

/// The deadline of the last entry: one tick, before that of any other.
const SOON: u64 = 1 << 30;

/// A call, and what makes the wheel ready for it.
struct Work {
    name: &'static str,
    ready: fn(&mut Wheel),
    call: fn(&mut Wheel),
}

const WORKS: [Work; 11] = [
    Work {
        name: "enable",
        ready: |on| *on = Wheel::new(RECORDS, LAST + 1, 0),
        call: |on| on.enable().expect("not enabled"),
    },
    Work { name: "set entry", ready: |_| (), call: |on| set(on, LAST, SOON) },
    Work { name: "schedule", ready: |_| (), call: arm },
    Work {
        name: "reschedule",
        ready: arm,
        call: |on| {
            on.reschedule(timer(on), 0).expect("armed");
        },
    },
    Work { name: "deschedule", ready: arm, call: |on| on.deschedule(timer(on), 0).expect("armed") },
    Work { name: "start", ready: |_| (), call: |on| on.start(SOON).expect("closed") },
    Work {
        name: "pull (Expired)",
        ready: |on| {
            arm(on);
            on.start(SOON).expect("closed");
        },
        call: |on| assert!(on.pull().expect("open").is_some()),
    },
    Work {
        name: "pull (End)",
        ready: |on| on.start(1).expect("closed"),
        call: |on| assert!(on.pull().expect("open").is_none()),
    },
    Work { name: "abandon", ready: |on| on.start(1).expect("closed"), call: |on| on.abandon().expect("open") },
    Work { name: "armed count", ready: |_| (), call: |on| assert_eq!(on.armed_count(), Ok(LAST)) },
    Work { name: "next due", ready: arm, call: |on| assert_eq!(on.next_due(), Ok(Some(SOON))) },
];

fn set(wheel: &mut Wheel, entry: usize, deadline: u64) {
    wheel.set_entry(entry, Entry::due(deadline)).expect("an entry");
}

/// Arms the last entry's timer, which takes the one slot that was free.
fn arm(wheel: &mut Wheel) {
    wheel.schedule(LAST, 0).expect("room");
}

/// The last entry's timer while it is armed: it has the latest serial.
fn timer(wheel: &Wheel) -> Handle {
    Handle { slot: RECORDS - 1, serial: wheel.records().clock.serial - 1 }
}

/// All slots armed but the last, with deadlines spread over the levels.
fn wheel() -> Wheel {
    let mut wheel = Wheel::new(RECORDS, LAST + 1, 0);
    wheel.enable().expect("not enabled");
    for entry in 0..LAST {
        set(&mut wheel, entry, (entry as u64 + 1).wrapping_mul(0x9e37_79b9_7f4a_7c15) >> 14);
        wheel.schedule(entry, 0).expect("room");
    }
    set(&mut wheel, LAST, SOON);
    wheel
}

/// The call alone runs in the thread.
fn run_in_thread(work: &Work, kib: usize) {
    let mut wheel = wheel();
    (work.ready)(&mut wheel);
    let call = work.call;
    let thread = std::thread::Builder::new().stack_size(kib << 10).spawn(move || call(&mut wheel));
    thread.expect("a thread").join().expect("no panic");
}

/// Whether the call runs in a thread with a stack of so many KiB: tried in a child process, since an overflow ends it.
fn runs_in(work: usize, kib: usize) -> bool {
    let me = std::env::current_exe().expect("this program");
    let ended = Command::new(me).args([work.to_string(), kib.to_string()]).stderr(Stdio::null()).status();
    ended.is_ok_and(|status| status.success())
}

fn least_stack(work: usize) -> usize {
    let (mut fails, mut runs) = (0, 16 << 10);
    while runs - fails > 16 {
        let middle = (fails + runs) / 2;
        if runs_in(work, middle) {
            runs = middle;
        } else {
            fails = middle;
        }
    }
    runs
}

fn main() {
    let args: Vec<usize> = std::env::args().skip(1).map(|arg| arg.parse().expect("a number")).collect();
    if let [work, kib] = args[..] {
        return run_in_thread(&WORKS[work], kib);
    }
    println!("{:22} {:>9}", "stack at 4,096", "KiB");
    for (at, work) in WORKS.iter().enumerate() {
        println!("{:22} {:9}", work.name, least_stack(at));
    }
}
