//! The records of a wheel, as the proved functions read and write them.

/// How many buckets the wheel has, and so how many heads and tails, and node records that are no timer's.
pub const BUCKETS: usize = 165;

/// The number that stands for no slot.
pub const NONE: usize = 4_096;

/// The record of a slot: a bucket's sentinel, an armed timer or free.
#[repr(C)]
#[derive(Clone, Copy, Debug, Default, PartialEq, Eq)]
pub struct Node {
    /// The slot after it in its bucket, or in the chain of free slots; or [`NONE`].
    pub next: usize,
    /// The slot before it in its bucket, or [`NONE`].
    pub prev: usize,
    /// Its bucket, counted level by level, or [`NONE`] where it is free.
    pub bucket: usize,
    /// The entry that the timer is armed for.
    pub entry: usize,
    /// The generation given at arming.
    pub generation: u32,
    /// The timer's serial.
    pub serial: u64,
}

/// The reading, the next serial, any open advance, the first free slot, and the lengths recorded at enabling.
#[repr(C)]
#[derive(Clone, Copy, Debug, Default, PartialEq, Eq)]
pub struct Clock {
    /// Whether the wheel is enabled.
    pub enabled: bool,
    /// The reading, in nanoseconds since the origin. While an advance is open, the one that it goes to.
    pub reading: u64,
    /// The serial of the next timer.
    pub serial: u64,
    /// Whether an advance is open.
    pub open: bool,
    /// The reading that the open advance started from.
    pub previous: u64,
    /// The level that the open advance is at.
    pub level: usize,
    /// Which of that level's buckets it is at, counted from the first that it visits.
    pub step: usize,
    /// The first free slot, or [`NONE`].
    pub free: usize,
    /// How many node records there were at enabling.
    pub nodes: usize,
    /// How many entries there were at enabling.
    pub entries: usize,
}

/// All that a wheel consists of. Whatever these records hold, and whatever their lengths are, every call on them
/// answers: where they are not sound, it is refused 4 and changes nothing.
///
/// ```
/// use juopmorin::{Refusal, Wheel};
///
/// let mut records = Wheel::with_room(8, 4)?.into_records();
/// records.heads[7] = 8; // the head of another bucket
/// let mut wheel = Wheel::from_records(records);
/// assert_eq!(wheel.start(1), Err(Refusal::NotSound));
/// # Ok::<(), Refusal>(())
/// ```
#[derive(Clone, Debug, PartialEq, Eq)]
pub struct Records {
    /// The reading and what else the wheel has once.
    pub clock: Clock,
    /// The first slot of each bucket.
    pub heads: [usize; BUCKETS],
    /// The last slot of each bucket.
    pub tails: [usize; BUCKETS],
    /// The slots: a sentinel for each bucket, and one for each timer that there is room for.
    pub nodes: Vec<Node>,
    /// Of each entry, whether it has a deadline.
    pub dated: Vec<bool>,
    /// Of each entry, the deadline, in nanoseconds since the origin.
    pub deadline: Vec<u64>,
    /// Of each entry, the generation.
    pub generation: Vec<u32>,
}

impl Records {
    /// So many node records and entries, all zero.
    pub(crate) fn zeroed(nodes: usize, entries: usize) -> Self {
        Self {
            clock: Clock::default(),
            heads: [0; BUCKETS],
            tails: [0; BUCKETS],
            nodes: vec![Node::default(); nodes],
            dated: vec![false; entries],
            deadline: vec![0; entries],
            generation: vec![0; entries],
        }
    }
}
