//! The alarm wheel, which owns its records.

use crate::advance::Advance;
use crate::answer::{Answer, Entry, Event, Handle, Outcome};
use crate::ffi;
use crate::records::{Records, BUCKETS};
use crate::refusal::Refusal;
use std::fmt;

/// One more than the most node records, and than the most entries, that a wheel has. Any more are refused alike.
const TOO_MANY: usize = 4_097;

/// A timer wheel: timers are armed for entries, and an advance of the clock hands out those whose entry's deadline has
/// come. The [crate] says when.
///
/// Times are in nanoseconds since the origin. An entry has a deadline or none, and a generation; it may be armed more
/// than once. Timers of the same bucket are handed out in the order in which they were put there.
///
/// ```
/// use juopmorin::{time::TICK_NS, Entry, Outcome, Refusal, Wheel};
///
/// let mut wheel = Wheel::with_room(8, 4)?;
/// wheel.set_entry(1, Entry::due(10))?;
/// let timer = wheel.schedule(1, 0)?;
///
/// wheel.set_entry(1, Entry::due(3 * TICK_NS))?; // the timer moves when it is rescheduled
/// assert_eq!(wheel.reschedule(timer, 0)?, Outcome::Moved);
/// assert_eq!(wheel.next_due()?, Some(3 * TICK_NS));
/// assert_eq!(wheel.advance(2 * TICK_NS)?.count(), 0);
/// assert_eq!(wheel.reading(), 2 * TICK_NS);
///
/// wheel.deschedule(timer, 0)?;
/// assert_eq!(wheel.armed_count()?, 0);
/// # Ok::<(), Refusal>(())
/// ```
#[derive(Clone, PartialEq, Eq)]
pub struct Wheel {
    records: Records,
}

impl Wheel {
    /// An enabled wheel with room for so many timers, 1 to 3,931, and so many entries, 1 to 4,096. Its reading is 0, no
    /// entry has a deadline, and its serials start at 0.
    ///
    /// # Errors
    ///
    /// Refused 3 where either number is out of its range.
    ///
    /// ```
    /// use juopmorin::{Refusal, Wheel};
    ///
    /// assert!(Wheel::with_room(3_931, 4_096).is_ok());
    /// assert_eq!(Wheel::with_room(0, 16), Err(Refusal::LengthsOutOfRange));
    /// assert_eq!(Wheel::with_room(usize::MAX, 16), Err(Refusal::LengthsOutOfRange));
    /// ```
    pub fn with_room(timers: usize, entries: usize) -> Result<Self, Refusal> {
        let nodes = timers.saturating_add(BUCKETS);
        let mut wheel = Self::new(nodes.min(TOO_MANY), entries.min(TOO_MANY), 0);
        wheel.enable()?;
        Ok(wheel)
    }

    /// A wheel over so many node records, of which 165 are no timer's, and so many entries, whose serials start at
    /// `first`. It is not enabled yet: the lengths are judged by [`enable`](Self::enable).
    #[must_use]
    pub fn new(nodes: usize, entries: usize, first: u64) -> Self {
        let mut wheel = Self { records: Records::zeroed(nodes, entries) };
        wheel.create(first);
        wheel
    }

    /// The wheel that these records are. They are as they stand: a call is refused 4 where they are not sound.
    #[must_use]
    pub fn from_records(records: Records) -> Self {
        Self { records }
    }

    /// Its records.
    #[must_use]
    pub fn records(&self) -> &Records {
        &self.records
    }

    /// Its records, to be changed and put together again by [`from_records`](Self::from_records).
    #[must_use]
    pub fn into_records(self) -> Records {
        self.records
    }

    /// The reading. While an advance is open, the one that it goes to.
    #[must_use]
    pub fn reading(&self) -> u64 {
        self.records.clock.reading
    }

    /// Whether an advance is open.
    #[must_use]
    pub fn is_open(&self) -> bool {
        self.records.clock.open
    }

    /// Whether the wheel is enabled.
    #[must_use]
    pub fn is_enabled(&self) -> bool {
        self.records.clock.enabled
    }

    /// How many timers there is room for.
    #[must_use]
    pub fn capacity(&self) -> usize {
        self.records.nodes.len().saturating_sub(BUCKETS)
    }

    /// How many entries there are.
    #[must_use]
    pub fn entries(&self) -> usize {
        self.records.dated.len()
    }

    /// An entry's deadline and generation, or `None` where there is no such entry.
    #[must_use]
    pub fn entry(&self, entry: usize) -> Option<Entry> {
        let dated = *self.records.dated.get(entry)?;
        let deadline = *self.records.deadline.get(entry)?;
        let generation = *self.records.generation.get(entry)?;
        Some(Entry { deadline: dated.then_some(deadline), generation })
    }

    /// Begins another wheel over the same records: reading 0, not enabled, serials from `first` on. The former one's
    /// timers are gone; the handle of one may be given again.
    pub fn create(&mut self, first: u64) {
        let ffi::Created { clock, heads, tails } = ffi::create(first);
        self.records.clock = clock;
        self.records.heads = heads;
        self.records.tails = tails;
    }

    /// Enables it: no timer is armed, no entry has a deadline, every generation is 0.
    ///
    /// # Errors
    ///
    /// Refused, in this order: 2 (enabled already), 3 (the lengths are out of range).
    pub fn enable(&mut self) -> Result<(), Refusal> {
        ffi::enable(&mut self.records).map(Answer::done)
    }

    /// Sets an entry's deadline, or none, and its generation. A timer that is armed for it stays in its bucket until it
    /// is rescheduled or an advance comes to it.
    ///
    /// # Errors
    ///
    /// Refused, in this order: 1 (not enabled), 4 (not sound), 5 (an advance is open), 7 (no such entry).
    pub fn set_entry(&mut self, entry: usize, set: Entry) -> Result<(), Refusal> {
        ffi::set_entry(&mut self.records, entry, set.deadline, set.generation).map(Answer::done)
    }

    /// Arms a timer for an entry whose generation this is.
    ///
    /// # Errors
    ///
    /// Refused, in this order: 1 (not enabled), 4 (not sound), 5 (an advance is open), 7 (no such entry), 8 (the
    /// entry's generation is another), 9 (the entry has no deadline), 10 (no free slot), 11 (the serials are used up).
    pub fn schedule(&mut self, entry: usize, generation: u32) -> Result<Handle, Refusal> {
        match ffi::schedule(&mut self.records, entry, generation)? {
            Answer::Armed(timer) => Ok(timer),
            other => other.of_another_version(),
        }
    }

    /// Places a timer by the deadline that its entry has now, or removes it where the entry has none. `generation` is
    /// the one given at arming.
    ///
    /// # Errors
    ///
    /// Refused, in this order: 1 (not enabled), 4 (not sound), 5 (an advance is open), 12 (the handle is stale), 13
    /// (armed with another generation).
    pub fn reschedule(&mut self, timer: Handle, generation: u32) -> Result<Outcome, Refusal> {
        match ffi::reschedule(&mut self.records, timer.slot, timer.serial, generation)? {
            Answer::Done => Ok(Outcome::Moved),
            Answer::Removed => Ok(Outcome::Removed),
            other => other.of_another_version(),
        }
    }

    /// Cancels a timer. `generation` is the one given at arming.
    ///
    /// # Errors
    ///
    /// Refused, in this order: 1 (not enabled), 4 (not sound), 5 (an advance is open), 12 (the handle is stale), 13
    /// (armed with another generation).
    pub fn deschedule(&mut self, timer: Handle, generation: u32) -> Result<(), Refusal> {
        ffi::deschedule(&mut self.records, timer.slot, timer.serial, generation).map(Answer::done)
    }

    /// Advances the clock to a reading: the events are read from what this answers, which abandons the advance if it is
    /// dropped before its end. A reading before the present one is no error: it hands out nothing.
    ///
    /// # Errors
    ///
    /// Refused, in this order: 1 (not enabled), 4 (not sound), 5 (an advance is open, from [`start`](Self::start)).
    pub fn advance(&mut self, reading: u64) -> Result<Advance<'_>, Refusal> {
        self.start(reading)?;
        Ok(Advance::opened(self))
    }

    /// Opens an advance to a reading, whose events are pulled one by one: what [`advance`](Self::advance) does, for
    /// those who cannot have the wheel borrowed meanwhile.
    ///
    /// # Errors
    ///
    /// Refused, in this order: 1 (not enabled), 4 (not sound), 5 (an advance is open).
    pub fn start(&mut self, reading: u64) -> Result<(), Refusal> {
        ffi::start(&mut self.records, reading).map(Answer::done)
    }

    /// The next event of the open advance, or `None` at its end, which closes it.
    ///
    /// # Errors
    ///
    /// Refused, in this order: 1 (not enabled), 4 (not sound), 6 (no advance is open).
    pub fn pull(&mut self) -> Result<Option<Event>, Refusal> {
        match ffi::pull(&mut self.records)? {
            Answer::Happened(event) => Ok(Some(event)),
            Answer::End => Ok(None),
            other => other.of_another_version(),
        }
    }

    /// Closes the open advance and restores the reading that it started from. What was pulled stays pulled.
    ///
    /// # Errors
    ///
    /// Refused, in this order: 1 (not enabled), 4 (not sound), 6 (no advance is open).
    pub fn abandon(&mut self) -> Result<(), Refusal> {
        ffi::abandon(&mut self.records).map(Answer::done)
    }

    /// How many timers are armed.
    ///
    /// # Errors
    ///
    /// Refused, in this order: 1 (not enabled), 4 (not sound).
    pub fn armed_count(&self) -> Result<usize, Refusal> {
        match ffi::armed_count(&self.records)? {
            Answer::Count(timers) => Ok(timers),
            other => other.of_another_version(),
        }
    }

    /// The smallest deadline among the entries of armed timers. An advance that is to hand out its timer has to enter a
    /// later tick too: sleep until the later of it and [`next_tick`](crate::time::next_tick) of the reading.
    ///
    /// # Errors
    ///
    /// Refused, in this order: 1 (not enabled), 4 (not sound), 5 (an advance is open).
    pub fn next_due(&self) -> Result<Option<u64>, Refusal> {
        match ffi::next_due(&self.records)? {
            Answer::Due(deadline) => Ok(Some(deadline)),
            Answer::Never => Ok(None),
            other => other.of_another_version(),
        }
    }
}

/// A line: reading, whether an advance is open, sizes, and how many timers are armed or why that is refused.
impl fmt::Debug for Wheel {
    fn fmt(&self, out: &mut fmt::Formatter<'_>) -> fmt::Result {
        out.debug_struct("Wheel")
            .field("reading", &self.reading())
            .field("open", &self.is_open())
            .field("capacity", &self.capacity())
            .field("entries", &self.entries())
            .field("armed", &self.armed_count())
            .finish()
    }
}
