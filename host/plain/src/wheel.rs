//! The alarm wheel: its records, owned by the host, and the proved calls on them.

use std::error::Error;
use std::fmt;

/// How many buckets the wheel has, and so how many heads, tails and sentinels.
pub const BUCKETS: usize = 165;

/// The number that stands for no slot.
pub const NONE: usize = 4_096;

/// The record of a slot.
#[repr(C)]
#[derive(Clone, Copy, Debug, Default, PartialEq, Eq)]
pub struct Node {
    pub next: usize,
    pub prev: usize,
    pub bucket: usize,
    pub entry: usize,
    pub generation: u32,
    pub serial: u64,
}

/// The reading, the next serial, any open advance, the first free slot and the lengths recorded at enabling.
#[repr(C)]
#[derive(Clone, Copy, Debug, Default, PartialEq, Eq)]
pub struct Clock {
    pub enabled: bool,
    pub reading: u64,
    pub serial: u64,
    pub open: bool,
    pub previous: u64,
    pub level: usize,
    pub step: usize,
    pub free: usize,
    pub nodes: usize,
    pub entries: usize,
}

/// A call that was refused: its number, and nothing has changed.
#[derive(Clone, Copy, Debug, PartialEq, Eq, Hash)]
pub struct Refusal(pub u8);

impl Refusal {
    /// When this number is given.
    pub fn when(self) -> &'static str {
        match self.0 {
            1 => "the wheel is not enabled",
            2 => "the wheel is enabled already",
            3 => "the lent lengths are outside their range",
            4 => "the lent records are not sound",
            5 => "an advance is open",
            6 => "no advance is open",
            7 => "there is no such entry",
            8 => "the entry's generation is another",
            9 => "the entry has no deadline",
            10 => "there is no free slot",
            11 => "the next serial is the last number",
            12 => "the handle is stale",
            13 => "the generation is not the one at arming",
            _ => "no refusal of the wheel has this number",
        }
    }
}

impl fmt::Display for Refusal {
    fn fmt(&self, out: &mut fmt::Formatter) -> fmt::Result {
        write!(out, "refused {}: {}", self.0, self.when())
    }
}

impl Error for Refusal {}

/// A timer, by its slot and serial.
#[derive(Clone, Copy, Debug, PartialEq, Eq, Hash)]
pub struct Handle {
    pub slot: usize,
    pub serial: u64,
}

/// What became of a rescheduled timer.
#[derive(Clone, Copy, Debug, PartialEq, Eq)]
pub enum Rescheduled {
    /// It stands at the back of the bucket of its entry's deadline.
    Moved,
    /// Its entry has no deadline, so it is gone.
    Removed,
}

/// What a pull answers while the advance goes on.
#[derive(Clone, Copy, Debug, PartialEq, Eq)]
pub enum Event {
    /// The timer's deadline has come, and it is gone.
    Expired { entry: usize, serial: u64, deadline: u64 },
    /// The timer was placed anew; `place` is level x 64 + index.
    Rescheduled { entry: usize, serial: u64, place: u64 },
}

/// An entry's deadline, if it has one, and its generation.
#[derive(Clone, Copy, Debug, Default, PartialEq, Eq)]
pub struct Entry {
    pub deadline: Option<u64>,
    pub generation: u32,
}

/// A wheel and its records. The fields are the host's own memory: what writes them beside the calls may have them
/// refused with 4.
#[derive(Clone, Debug, PartialEq, Eq)]
pub struct Wheel {
    pub clock: Clock,
    pub heads: [usize; BUCKETS],
    pub tails: [usize; BUCKETS],
    pub nodes: Vec<Node>,
    pub dated: Vec<bool>,
    pub deadline: Vec<u64>,
    pub stamp: Vec<u32>,
}

/// What create hands out.
#[repr(C)]
struct Created {
    clock: Clock,
    heads: [usize; BUCKETS],
    tails: [usize; BUCKETS],
}

/// The numbers that an answer is written to: the refusal's number or 0, which answer it is, and up to three values.
type Told = [u64; 5];

/// Which answer it is: `Told`'s second number.
mod kind {
    pub const ARMED: u64 = 1;
    pub const REMOVED: u64 = 2;
    pub const END: u64 = 3;
    pub const EXPIRED: u64 = 4;
    pub const MOVED: u64 = 5;
    pub const COUNT: u64 = 6;
    pub const DUE: u64 = 7;
    pub const NEVER: u64 = 8;
}

// A slice of the Rattle side is two parameters here, its address and its length. A parameter of a mutable slice is
// `*mut`. The answer's five numbers are an address alone.
#[link(name = "exports", kind = "static")]
extern "C" {
    fn wheel_create(first: u64) -> Created;
    fn wheel_enable(
        nodes: *mut Node, n: usize, clock: *mut Clock, heads: *mut usize, h: usize, tails: *mut usize, t: usize,
        dated: *mut bool, d: usize, deadline: *mut u64, l: usize, stamp: *mut u32, s: usize, answer: &mut Told,
    ) -> u64;
    fn wheel_set_entry(
        nodes: *const Node, n: usize, clock: Clock, heads: *const usize, h: usize, tails: *const usize, t: usize,
        dated: *mut bool, d: usize, deadline: *mut u64, l: usize, stamp: *mut u32, s: usize, entry: usize, has: bool,
        due: u64, generation: u32, answer: &mut Told,
    ) -> u64;
    fn wheel_armed_count(
        nodes: *const Node, n: usize, clock: Clock, heads: *const usize, h: usize, tails: *const usize, t: usize,
        dated: *const bool, d: usize, deadline: *const u64, l: usize, stamp: *const u32, s: usize, answer: &mut Told,
    ) -> u64;
    fn wheel_next_due(
        nodes: *const Node, n: usize, clock: Clock, heads: *const usize, h: usize, tails: *const usize, t: usize,
        dated: *const bool, d: usize, deadline: *const u64, l: usize, stamp: *const u32, s: usize, answer: &mut Told,
    ) -> u64;
    fn wheel_schedule(
        nodes: *mut Node, n: usize, clock: *mut Clock, heads: *mut usize, h: usize, tails: *mut usize, t: usize,
        dated: *const bool, d: usize, deadline: *const u64, l: usize, stamp: *const u32, s: usize, entry: usize,
        generation: u32, answer: &mut Told,
    ) -> u64;
    fn wheel_reschedule(
        nodes: *mut Node, n: usize, clock: *mut Clock, heads: *mut usize, h: usize, tails: *mut usize, t: usize,
        dated: *const bool, d: usize, deadline: *const u64, l: usize, stamp: *const u32, s: usize, slot: usize,
        serial: u64, generation: u32, answer: &mut Told,
    ) -> u64;
    fn wheel_deschedule(
        nodes: *mut Node, n: usize, clock: *mut Clock, heads: *mut usize, h: usize, tails: *mut usize, t: usize,
        dated: *const bool, d: usize, deadline: *const u64, l: usize, stamp: *const u32, s: usize, slot: usize,
        serial: u64, generation: u32, answer: &mut Told,
    ) -> u64;
    fn wheel_start(
        nodes: *const Node, n: usize, clock: *mut Clock, heads: *const usize, h: usize, tails: *const usize, t: usize,
        dated: *const bool, d: usize, deadline: *const u64, l: usize, stamp: *const u32, s: usize, reading: u64,
        answer: &mut Told,
    ) -> u64;
    fn wheel_pull(
        nodes: *mut Node, n: usize, clock: *mut Clock, heads: *mut usize, h: usize, tails: *mut usize, t: usize,
        dated: *const bool, d: usize, deadline: *const u64, l: usize, stamp: *const u32, s: usize, answer: &mut Told,
    ) -> u64;
    fn wheel_abandon(
        nodes: *const Node, n: usize, clock: *mut Clock, heads: *const usize, h: usize, tails: *const usize, t: usize,
        dated: *const bool, d: usize, deadline: *const u64, l: usize, stamp: *const u32, s: usize, answer: &mut Told,
    ) -> u64;
}

/// Calls `$name` with every record lent: nodes, heads and tails by `$nodes`, the entries by `$entries`, the clock as
/// `$clock`; then the further arguments. The answer is the five numbers, or the refusal.
macro_rules! call {
    ($wheel:ident, $name:ident, $nodes:ident, $clock:expr, $entries:ident $(, $more:expr)*) => {{
        let mut told: Told = [0; 5];
        // SAFETY: each pair is the address and the length of a slice that this wheel owns; they and `told` do not
        // overlap, mutable ones come from `&mut self`, and the proved function reads and writes them and `told` only,
        // for any contents and any lengths.
        let number = unsafe {
            $name(
                $wheel.nodes.$nodes(), $wheel.nodes.len(), $clock,
                $wheel.heads.$nodes(), BUCKETS, $wheel.tails.$nodes(), BUCKETS,
                $wheel.dated.$entries(), $wheel.dated.len(), $wheel.deadline.$entries(), $wheel.deadline.len(),
                $wheel.stamp.$entries(), $wheel.stamp.len() $(, $more)*, &mut told,
            )
        };
        if number == 0 { Ok(told) } else { Err(Refusal(number as u8)) }
    }};
}

impl Wheel {
    /// Lends so many node records and entries, all zero, and begins a wheel over them whose serials start at `first`.
    /// It is not enabled yet.
    pub fn new(nodes: usize, entries: usize, first: u64) -> Self {
        let mut wheel = Self {
            clock: Clock::default(),
            heads: [0; BUCKETS],
            tails: [0; BUCKETS],
            nodes: vec![Node::default(); nodes],
            dated: vec![false; entries],
            deadline: vec![0; entries],
            stamp: vec![0; entries],
        };
        wheel.create(first);
        wheel
    }

    /// Begins another wheel over the same records: reading 0, not enabled. The former one's timers are gone; the handle
    /// of one may be given again.
    pub fn create(&mut self, first: u64) {
        // SAFETY: a number in, a struct out.
        let created = unsafe { wheel_create(first) };
        self.clock = created.clock;
        self.heads = created.heads;
        self.tails = created.tails;
    }

    /// Enables it: every slot after the sentinels is free, no entry has a deadline.
    pub fn enable(&mut self) -> Result<(), Refusal> {
        call!(self, wheel_enable, as_mut_ptr, &mut self.clock, as_mut_ptr).map(|_: Told| ())
    }

    /// Sets an entry's deadline, or none, and its generation.
    pub fn set_entry(&mut self, entry: usize, set: Entry) -> Result<(), Refusal> {
        let due = set.deadline.unwrap_or(0);
        call!(self, wheel_set_entry, as_ptr, self.clock, as_mut_ptr, entry, set.deadline.is_some(), due, set.generation).map(|_: Told| ())
    }

    /// Arms a timer for an entry whose generation this is.
    pub fn schedule(&mut self, entry: usize, generation: u32) -> Result<Handle, Refusal> {
        let told: Told = call!(self, wheel_schedule, as_mut_ptr, &mut self.clock, as_ptr, entry, generation)?;
        debug_assert_eq!(told[1], kind::ARMED);
        Ok(Handle { slot: told[2] as usize, serial: told[3] })
    }

    /// Places a timer by the deadline that its entry has now, or removes it where there is none. `generation` is that
    /// of the arming.
    pub fn reschedule(&mut self, timer: Handle, generation: u32) -> Result<Rescheduled, Refusal> {
        let told: Told = call!(self, wheel_reschedule, as_mut_ptr, &mut self.clock, as_ptr, timer.slot, timer.serial, generation)?;
        Ok(if told[1] == kind::REMOVED { Rescheduled::Removed } else { Rescheduled::Moved })
    }

    /// Cancels a timer.
    pub fn deschedule(&mut self, timer: Handle, generation: u32) -> Result<(), Refusal> {
        call!(self, wheel_deschedule, as_mut_ptr, &mut self.clock, as_ptr, timer.slot, timer.serial, generation).map(|_: Told| ())
    }

    /// Opens an advance to a reading. Its events are pulled one by one.
    pub fn start(&mut self, reading: u64) -> Result<(), Refusal> {
        call!(self, wheel_start, as_ptr, &mut self.clock, as_ptr, reading).map(|_: Told| ())
    }

    /// The next event of the open advance, or `None` at its end, which closes it.
    pub fn pull(&mut self) -> Result<Option<Event>, Refusal> {
        let told: Told = call!(self, wheel_pull, as_mut_ptr, &mut self.clock, as_ptr)?;
        let [_, which, entry, serial, value] = told;
        Ok(match which {
            kind::EXPIRED => Some(Event::Expired { entry: entry as usize, serial, deadline: value }),
            kind::MOVED => Some(Event::Rescheduled { entry: entry as usize, serial, place: value }),
            _ => {
                debug_assert_eq!(which, kind::END);
                None
            }
        })
    }

    /// Closes the open advance and restores the reading that it started from.
    pub fn abandon(&mut self) -> Result<(), Refusal> {
        call!(self, wheel_abandon, as_ptr, &mut self.clock, as_ptr).map(|_: Told| ())
    }

    /// How many timers are armed.
    pub fn armed_count(&self) -> Result<usize, Refusal> {
        let told: Told = call!(self, wheel_armed_count, as_ptr, self.clock, as_ptr)?;
        debug_assert_eq!(told[1], kind::COUNT);
        Ok(told[2] as usize)
    }

    /// The smallest deadline among armed timers.
    pub fn next_due(&self) -> Result<Option<u64>, Refusal> {
        let told: Told = call!(self, wheel_next_due, as_ptr, self.clock, as_ptr)?;
        debug_assert!(told[1] == kind::DUE || told[1] == kind::NEVER);
        Ok((told[1] == kind::DUE).then_some(told[2]))
    }
}
