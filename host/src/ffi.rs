//! The proved functions of `libjuopmorin.a`, lent the records of a wheel. All unsafe code of the crate is here.

use crate::answer::Answer;
use crate::records::{Clock, Node, Records, BUCKETS};
use crate::refusal::Refusal;

/// What create hands out.
#[repr(C)]
pub(crate) struct Created {
    pub(crate) clock: Clock,
    pub(crate) heads: [usize; BUCKETS],
    pub(crate) tails: [usize; BUCKETS],
}

/// The numbers that an answer is written to: the refusal's number or 0, which answer it is, and up to three values.
type Told = [u64; 5];

// A slice of the library is two parameters, its address and its length; the five numbers are an address alone. A clock
// that a call changes is an address, else a value. The lists are kept short by hand.
#[rustfmt::skip]
#[link(name = "juopmorin", kind = "static")]
extern "C" {
    fn juop_create(first: u64) -> Created;
    fn juop_enable(
        nodes: *mut Node, n: usize, clock: *mut Clock, heads: *mut usize, h: usize, tails: *mut usize, t: usize,
        dated: *mut bool, d: usize, deadline: *mut u64, l: usize, generation: *mut u32, g: usize, told: &mut Told,
    ) -> u64;
    fn juop_set_entry(
        nodes: *const Node, n: usize, clock: Clock, heads: *const usize, h: usize, tails: *const usize, t: usize,
        dated: *mut bool, d: usize, deadline: *mut u64, l: usize, generation: *mut u32, g: usize,
        entry: usize, has: bool, due: u64, stamp: u32, told: &mut Told,
    ) -> u64;
    fn juop_schedule(
        nodes: *mut Node, n: usize, clock: *mut Clock, heads: *mut usize, h: usize, tails: *mut usize, t: usize,
        dated: *const bool, d: usize, deadline: *const u64, l: usize, generation: *const u32, g: usize,
        entry: usize, stamp: u32, told: &mut Told,
    ) -> u64;
    fn juop_reschedule(
        nodes: *mut Node, n: usize, clock: *mut Clock, heads: *mut usize, h: usize, tails: *mut usize, t: usize,
        dated: *const bool, d: usize, deadline: *const u64, l: usize, generation: *const u32, g: usize,
        slot: usize, serial: u64, stamp: u32, told: &mut Told,
    ) -> u64;
    fn juop_deschedule(
        nodes: *mut Node, n: usize, clock: *mut Clock, heads: *mut usize, h: usize, tails: *mut usize, t: usize,
        dated: *const bool, d: usize, deadline: *const u64, l: usize, generation: *const u32, g: usize,
        slot: usize, serial: u64, stamp: u32, told: &mut Told,
    ) -> u64;
    fn juop_start(
        nodes: *const Node, n: usize, clock: *mut Clock, heads: *const usize, h: usize, tails: *const usize, t: usize,
        dated: *const bool, d: usize, deadline: *const u64, l: usize, generation: *const u32, g: usize,
        reading: u64, told: &mut Told,
    ) -> u64;
    fn juop_pull(
        nodes: *mut Node, n: usize, clock: *mut Clock, heads: *mut usize, h: usize, tails: *mut usize, t: usize,
        dated: *const bool, d: usize, deadline: *const u64, l: usize, generation: *const u32, g: usize, told: &mut Told,
    ) -> u64;
    fn juop_abandon(
        nodes: *const Node, n: usize, clock: *mut Clock, heads: *const usize, h: usize, tails: *const usize, t: usize,
        dated: *const bool, d: usize, deadline: *const u64, l: usize, generation: *const u32, g: usize, told: &mut Told,
    ) -> u64;
    fn juop_armed_count(
        nodes: *const Node, n: usize, clock: Clock, heads: *const usize, h: usize, tails: *const usize, t: usize,
        dated: *const bool, d: usize, deadline: *const u64, l: usize, generation: *const u32, g: usize, told: &mut Told,
    ) -> u64;
    fn juop_next_due(
        nodes: *const Node, n: usize, clock: Clock, heads: *const usize, h: usize, tails: *const usize, t: usize,
        dated: *const bool, d: usize, deadline: *const u64, l: usize, generation: *const u32, g: usize, told: &mut Told,
    ) -> u64;
    fn juop_place(reading: u64, deadline: u64) -> u64;
    fn juop_word_index(hash: u64, depth: u64, mask: u64) -> u64;
}

/// Calls `$name` with every record lent: nodes, heads and tails by `$nodes`, the entries by `$entries`, the clock as
/// `$clock`; then the further arguments.
macro_rules! lend {
    ($records:ident, $name:ident, $nodes:ident, $clock:expr, $entries:ident $(, $more:expr)*) => {{
        let mut told: Told = [0; 5];
        // SAFETY: each pair is the address and the length of a slice in `$records`, and of its kind; they, the clock
        // and `told` do not overlap and live on beyond the call; mutable addresses come from a `&mut Records`. The
        // proved function reads and writes nothing else, for any contents and any lengths.
        let number = unsafe {
            $name(
                $records.nodes.$nodes(), $records.nodes.len(), $clock,
                $records.heads.$nodes(), BUCKETS, $records.tails.$nodes(), BUCKETS,
                $records.dated.$entries(), $records.dated.len(),
                $records.deadline.$entries(), $records.deadline.len(),
                $records.generation.$entries(), $records.generation.len() $(, $more)*, &mut told,
            )
        };
        answered(number, told)
    }};
}

fn answered(number: u64, [_, which, a, b, c]: Told) -> Result<Answer, Refusal> {
    match number {
        0 => Ok(Answer::told(which, [a, b, c])),
        number => Err(Refusal::numbered(number)),
    }
}

pub(crate) fn create(first: u64) -> Created {
    // SAFETY: a number in, a struct of C's layout out, proved for every number.
    unsafe { juop_create(first) }
}

pub(crate) fn enable(on: &mut Records) -> Result<Answer, Refusal> {
    lend!(on, juop_enable, as_mut_ptr, &mut on.clock, as_mut_ptr)
}

pub(crate) fn set_entry(
    on: &mut Records,
    entry: usize,
    deadline: Option<u64>,
    generation: u32,
) -> Result<Answer, Refusal> {
    let (has, due) = (deadline.is_some(), deadline.unwrap_or(0));
    lend!(on, juop_set_entry, as_ptr, on.clock, as_mut_ptr, entry, has, due, generation)
}

pub(crate) fn schedule(on: &mut Records, entry: usize, generation: u32) -> Result<Answer, Refusal> {
    lend!(on, juop_schedule, as_mut_ptr, &mut on.clock, as_ptr, entry, generation)
}

pub(crate) fn reschedule(on: &mut Records, slot: usize, serial: u64, generation: u32) -> Result<Answer, Refusal> {
    lend!(on, juop_reschedule, as_mut_ptr, &mut on.clock, as_ptr, slot, serial, generation)
}

pub(crate) fn deschedule(on: &mut Records, slot: usize, serial: u64, generation: u32) -> Result<Answer, Refusal> {
    lend!(on, juop_deschedule, as_mut_ptr, &mut on.clock, as_ptr, slot, serial, generation)
}

pub(crate) fn start(on: &mut Records, reading: u64) -> Result<Answer, Refusal> {
    lend!(on, juop_start, as_ptr, &mut on.clock, as_ptr, reading)
}

pub(crate) fn pull(on: &mut Records) -> Result<Answer, Refusal> {
    lend!(on, juop_pull, as_mut_ptr, &mut on.clock, as_ptr)
}

pub(crate) fn abandon(on: &mut Records) -> Result<Answer, Refusal> {
    lend!(on, juop_abandon, as_ptr, &mut on.clock, as_ptr)
}

pub(crate) fn armed_count(on: &Records) -> Result<Answer, Refusal> {
    lend!(on, juop_armed_count, as_ptr, on.clock, as_ptr)
}

pub(crate) fn next_due(on: &Records) -> Result<Answer, Refusal> {
    lend!(on, juop_next_due, as_ptr, on.clock, as_ptr)
}

pub(crate) fn place(reading: u64, deadline: u64) -> u64 {
    // SAFETY: numbers in, a number out, proved for every pair.
    unsafe { juop_place(reading, deadline) }
}

pub(crate) fn word_index(hash: u64, depth: u64, mask: u64) -> u64 {
    // SAFETY: numbers in, a number out, proved for all three.
    unsafe { juop_word_index(hash, depth, mask) }
}
