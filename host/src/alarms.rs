//! Values with a deadline, handed out when they are due: a layer above the wheel that keeps its entries and handles.

mod expiring;
mod insert_error;
mod shelf;

pub use expiring::{Expired, Expiring};
pub use insert_error::InsertError;
pub use shelf::Key;

use crate::answer::Entry;
use crate::refusal::Refusal;
use crate::time::{nanoseconds, next_tick, since_origin};
use crate::wheel::Wheel;
use shelf::{Armed, Shelf};
use std::borrow::Cow;
use std::fmt;
use std::time::Duration;

/// The generation of every entry: keys tell a former use of an entry by the serial.
const GENERATION: u32 = 0;

/// Alarms, each with a value and a deadline.
///
/// A time is a [`Duration`] since an origin that the program chooses; one of 2^64 ns or more counts as 2^64 - 1 ns. The
/// [crate] says when an alarm rings. A deadline before the reading is armed for the reading instead, so that it rings
/// when the next tick starts; if the clock is set back meanwhile, not before that reading is reached again. The
/// deadline handed out is the one given.
///
/// ```
/// use juopmorin::{Alarms, Refusal};
/// use std::time::Duration;
///
/// let mut alarms = Alarms::with_room(100)?;
/// let bolus = alarms.insert("bolus ends", Duration::from_secs(5)).expect("there is room");
/// let empty = alarms.insert("syringe empty", Duration::from_secs(60)).expect("there is room");
///
/// let now = alarms.next_due().expect("two alarms are armed"); // what to sleep until
/// assert_eq!(now, Duration::from_secs(5));
/// for alarm in alarms.advance(now) {
///     assert_eq!((alarm.key, alarm.value), (bolus, "bolus ends"));
/// }
///
/// assert_eq!(alarms.get(&bolus), None);
/// assert_eq!(alarms.remove(&empty), Some("syringe empty"));
/// assert!(alarms.is_empty());
/// # Ok::<(), Refusal>(())
/// ```
#[derive(Clone)]
pub struct Alarms<T> {
    /// Enabled and sound; no advance is open but that of an [`Expiring`] that lives or was forgotten. A timer is armed
    /// for each value on the shelf, by its entry number, and no other.
    wheel: Wheel,
    shelf: Shelf<T>,
}

/// What the wheel answers to a call that cannot be refused.
fn granted<T>(answer: Result<T, Refusal>) -> T {
    answer.expect(
        "the alarms keep their wheel enabled, sound (proved) and closed, and call it with the entries and handles of \
         armed timers: no such call is refused",
    )
}

impl<T> Alarms<T> {
    /// Room for so many alarms, 1 to 3,931. The reading is the origin.
    ///
    /// # Errors
    ///
    /// Refused 3 where the number is out of its range.
    pub fn with_room(alarms: usize) -> Result<Self, Refusal> {
        let wheel = Wheel::with_room(alarms, alarms)?;
        Ok(Self { wheel, shelf: Shelf::with_room(alarms) })
    }

    /// Arms an alarm, and answers the key to it.
    ///
    /// # Errors
    ///
    /// The value is handed back with the refusal: 10 (as many alarms are armed as there is room for), 11 (2^64 - 1
    /// alarms have been armed).
    pub fn insert(&mut self, value: T, deadline: Duration) -> Result<Key, InsertError<T>> {
        self.close();
        let Some(entry) = self.shelf.first_free() else {
            return Err(InsertError { value, refusal: Refusal::NoFreeSlot });
        };
        granted(self.wheel.set_entry(entry, self.entry_for(deadline)));
        match self.wheel.schedule(entry, GENERATION) {
            Ok(timer) => Ok(self.shelf.put(entry, Armed { timer, deadline, value })),
            Err(refusal) => Err(InsertError { value, refusal }),
        }
    }

    /// Takes an alarm out before it rings, or answers `None` where the key is stale: it has rung or been taken out.
    pub fn remove(&mut self, key: &Key) -> Option<T> {
        self.close();
        let timer = self.shelf.get(key)?.timer;
        granted(self.wheel.deschedule(timer, GENERATION));
        Some(self.shelf.take(key.entry).value)
    }

    /// Gives an alarm another deadline and answers the one that it had, or `None` where the key is stale.
    pub fn reset(&mut self, key: &Key, deadline: Duration) -> Option<Duration> {
        self.close();
        let armed = self.shelf.get_mut(key)?;
        let timer = armed.timer;
        let former = std::mem::replace(&mut armed.deadline, deadline);
        granted(self.wheel.set_entry(key.entry, self.entry_for(deadline)));
        granted(self.wheel.reschedule(timer, GENERATION));
        Some(former)
    }

    /// The value of an alarm, or `None` where the key is stale.
    #[must_use]
    pub fn get(&self, key: &Key) -> Option<&T> {
        self.shelf.get(key).map(|armed| &armed.value)
    }

    /// How many alarms are armed.
    #[must_use]
    pub fn len(&self) -> usize {
        self.shelf.len()
    }

    /// Whether no alarm is armed.
    #[must_use]
    pub fn is_empty(&self) -> bool {
        self.len() == 0
    }

    /// How many alarms there is room for.
    #[must_use]
    pub fn capacity(&self) -> usize {
        self.wheel.capacity()
    }

    /// Takes out every alarm. The reading stays, and every key is stale.
    pub fn clear(&mut self) {
        self.close();
        let reading = self.wheel.reading();
        self.wheel.create(self.wheel.records().clock.serial);
        granted(self.wheel.enable());
        let events = granted(self.wheel.advance(reading)).finish();
        debug_assert!(events.is_empty(), "no timer is armed");
        self.shelf.clear();
    }

    /// The time of the last advance that was read to its end; the origin before the first.
    #[must_use]
    pub fn reading(&self) -> Duration {
        since_origin(self.closed().reading())
    }

    /// What to sleep until: the least time an advance to which, read to its end, hands something out. That is the later
    /// of the smallest deadline and the start of the tick after the reading's. `None` where no alarm is armed, or no
    /// tick comes after the reading's.
    #[must_use]
    pub fn next_due(&self) -> Option<Duration> {
        let wheel = self.closed();
        let smallest = granted(wheel.next_due())?;
        let tick = next_tick(wheel.reading())?;
        Some(since_origin(smallest.max(tick)))
    }

    /// Advances the clock: the alarms that ring are read from what this answers. If it is dropped before its end, the
    /// reading goes back, and what it did not hand out stays armed and comes with the next advance. A time before the
    /// reading is no error: it hands out nothing.
    pub fn advance(&mut self, now: Duration) -> Expiring<'_, T> {
        self.close();
        let advance = granted(self.wheel.advance(nanoseconds(now)));
        Expiring::reading(advance, &mut self.shelf)
    }

    /// The wheel's entry for a deadline given now.
    fn entry_for(&self, deadline: Duration) -> Entry {
        Entry::due(nanoseconds(deadline).max(self.wheel.reading()))
    }

    /// Abandons the advance of an [`Expiring`] that was forgotten instead of dropped.
    fn close(&mut self) {
        if self.wheel.is_open() {
            granted(self.wheel.abandon());
        }
    }

    /// The wheel as [`close`](Self::close) would leave it.
    fn closed(&self) -> Cow<'_, Wheel> {
        let mut wheel = Cow::Borrowed(&self.wheel);
        if wheel.is_open() {
            granted(wheel.to_mut().abandon());
        }
        wheel
    }
}

/// A line: reading, how many alarms are armed, and how many there is room for.
impl<T> fmt::Debug for Alarms<T> {
    fn fmt(&self, out: &mut fmt::Formatter<'_>) -> fmt::Result {
        out.debug_struct("Alarms")
            .field("reading", &self.reading())
            .field("len", &self.len())
            .field("capacity", &self.capacity())
            .finish()
    }
}
