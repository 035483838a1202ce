//! An open advance as an iterator.

use crate::answer::Event;
use crate::wheel::Wheel;
use std::iter::FusedIterator;

/// An open advance of a [`Wheel`], from [`Wheel::advance`]: an iterator over its events.
///
/// It borrows the wheel until it is dropped. Dropped before its end it is abandoned: what it handed out stays handed
/// out, the reading goes back to the one that it started from, and the timers that it did not come to wait for the next
/// advance. One that is forgotten ([`std::mem::forget`]) stays open, until [`Wheel::abandon`] or pulls to its end.
///
/// ```
/// use juopmorin::{time::TICK_NS, Entry, Event, Refusal, Wheel};
///
/// let mut wheel = Wheel::with_room(8, 4)?;
/// for entry in 0..3 {
///     wheel.set_entry(entry, Entry::due(10))?;
///     wheel.schedule(entry, 0)?;
/// }
///
/// let mut advance = wheel.advance(TICK_NS)?;
/// assert_eq!(advance.next(), Some(Event::Expired { entry: 0, serial: 0, deadline: 10 }));
/// drop(advance); // abandons
/// assert_eq!((wheel.reading(), wheel.armed_count()?), (0, 2));
///
/// assert_eq!(wheel.advance(TICK_NS)?.count(), 2);
/// assert_eq!((wheel.reading(), wheel.armed_count()?), (TICK_NS, 0));
/// # Ok::<(), Refusal>(())
/// ```
#[derive(Debug)]
#[must_use = "an advance that is not read is abandoned"]
pub struct Advance<'w> {
    wheel: &'w mut Wheel,
}

impl<'w> Advance<'w> {
    /// Of a wheel whose start has just been answered.
    pub(crate) fn opened(wheel: &'w mut Wheel) -> Self {
        Self { wheel }
    }

    /// Reads on to the end and hands out the events that were left, so that no alarm is lost.
    ///
    /// ```
    /// use juopmorin::{time::TICK_NS, Entry, Refusal, Wheel};
    ///
    /// let mut wheel = Wheel::with_room(8, 4)?;
    /// for entry in 0..3 {
    ///     wheel.set_entry(entry, Entry::due(10))?;
    ///     wheel.schedule(entry, 0)?;
    /// }
    /// let mut advance = wheel.advance(TICK_NS)?;
    /// let first = advance.next();
    /// let rest = advance.finish();
    /// assert!(first.is_some() && rest.len() == 2);
    /// assert_eq!(wheel.reading(), TICK_NS);
    /// # Ok::<(), Refusal>(())
    /// ```
    #[must_use = "these events are handed out once"]
    pub fn finish(mut self) -> Vec<Event> {
        self.by_ref().collect()
    }

    /// Abandons it, as a drop does.
    pub fn abandon(self) {
        drop(self);
    }
}

impl Iterator for Advance<'_> {
    type Item = Event;

    fn next(&mut self) -> Option<Event> {
        if !self.wheel.is_open() {
            return None; // it has been read to its end, which closed it
        }
        self.wheel.pull().expect(
            "start found the records sound, every call keeps them so (proved), and while this borrow lasts nothing \
             else changes them: a pull on an open advance over sound records is not refused",
        )
    }
}

impl FusedIterator for Advance<'_> {}

impl Drop for Advance<'_> {
    fn drop(&mut self) {
        if self.wheel.is_open() {
            let answer = self.wheel.abandon();
            debug_assert_eq!(answer, Ok(()), "as in `next`: open, and sound");
        }
    }
}
