//! The alarms that ring at an advance.

use super::shelf::{Key, Shelf};
use crate::advance::Advance;
use crate::answer::Event;
use std::fmt;
use std::iter::FusedIterator;
use std::time::Duration;

/// An alarm that has rung.
#[derive(Clone, Debug, PartialEq, Eq)]
pub struct Expired<T> {
    /// The key that it had: stale now.
    pub key: Key,
    /// The deadline, as it was given.
    pub deadline: Duration,
    /// The value.
    pub value: T,
}

/// An advance of [`Alarms`](super::Alarms): an iterator over the alarms that ring. Dropped before its end it is
/// abandoned: the reading goes back, and what it did not hand out stays armed and comes with the next advance. One that
/// is forgotten ([`std::mem::forget`]) counts as dropped.
///
/// ```
/// use juopmorin::{time::TICK, Alarms, Refusal};
///
/// let mut alarms = Alarms::with_room(10)?;
/// for value in 0..3 {
///     alarms.insert(value, TICK).expect("there is room");
/// }
/// let first = alarms.advance(TICK).next(); // the rest of this advance is dropped
/// assert_eq!((first.map(|alarm| alarm.value), alarms.len()), (Some(0), 2));
/// let rest = alarms.advance(TICK).map(|alarm| alarm.value);
/// assert_eq!(rest.collect::<Vec<_>>(), [1, 2]);
/// # Ok::<(), Refusal>(())
/// ```
#[must_use = "an advance that is not read is abandoned"]
pub struct Expiring<'a, T> {
    advance: Advance<'a>,
    shelf: &'a mut Shelf<T>,
}

impl<'a, T> Expiring<'a, T> {
    pub(super) fn reading(advance: Advance<'a>, shelf: &'a mut Shelf<T>) -> Self {
        Self { advance, shelf }
    }
}

impl<T> Iterator for Expiring<'_, T> {
    type Item = Expired<T>;

    fn next(&mut self) -> Option<Expired<T>> {
        let (entry, serial) = self.advance.find_map(|event| match event {
            Event::Expired { entry, serial, .. } => Some((entry, serial)),
            Event::Rescheduled { .. } => None,
        })?;
        let armed = self.shelf.take(entry);
        Some(Expired { key: Key { entry, serial }, deadline: armed.deadline, value: armed.value })
    }
}

impl<T> FusedIterator for Expiring<'_, T> {}

impl<T> fmt::Debug for Expiring<'_, T> {
    fn fmt(&self, out: &mut fmt::Formatter<'_>) -> fmt::Result {
        out.debug_struct("Expiring").field("advance", &self.advance).finish_non_exhaustive()
    }
}
