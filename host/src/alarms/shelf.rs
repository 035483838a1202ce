//! The values of armed alarms, by entry number, and the keys to them.

use crate::answer::Handle;
use std::time::Duration;

/// The key to an alarm, good for the [`Alarms`](super::Alarms) that gave it. No other alarm of these ever has the same.
#[derive(Clone, Copy, Debug, PartialEq, Eq, Hash)]
pub struct Key {
    pub(super) entry: usize,
    pub(super) serial: u64,
}

/// An armed alarm.
#[derive(Clone)]
pub(super) struct Armed<T> {
    pub(super) timer: Handle,
    /// As the program gave it.
    pub(super) deadline: Duration,
    pub(super) value: T,
}

/// A place for each entry of the wheel, with an armed alarm or free.
#[derive(Clone)]
pub(super) struct Shelf<T> {
    places: Vec<Option<Armed<T>>>,
    /// The free ones, each once; the last is taken first.
    free: Vec<usize>,
}

impl<T> Shelf<T> {
    pub(super) fn with_room(alarms: usize) -> Self {
        let mut shelf = Self { places: Vec::new(), free: Vec::new() };
        shelf.places.resize_with(alarms, || None);
        shelf.free.extend((0..alarms).rev());
        shelf
    }

    pub(super) fn len(&self) -> usize {
        self.places.len() - self.free.len()
    }

    /// The entry that the next alarm is put at.
    pub(super) fn first_free(&self) -> Option<usize> {
        self.free.last().copied()
    }

    /// Puts an alarm at the first free entry.
    pub(super) fn put(&mut self, entry: usize, armed: Armed<T>) -> Key {
        debug_assert_eq!(self.first_free(), Some(entry));
        self.free.pop();
        let serial = armed.timer.serial;
        self.places[entry] = Some(armed);
        Key { entry, serial }
    }

    pub(super) fn get(&self, key: &Key) -> Option<&Armed<T>> {
        self.places.get(key.entry)?.as_ref().filter(|armed| armed.timer.serial == key.serial)
    }

    pub(super) fn get_mut(&mut self, key: &Key) -> Option<&mut Armed<T>> {
        self.places.get_mut(key.entry)?.as_mut().filter(|armed| armed.timer.serial == key.serial)
    }

    /// Takes out the alarm at an entry for which a timer was armed.
    pub(super) fn take(&mut self, entry: usize) -> Armed<T> {
        let armed = self.places[entry].take().expect("a timer is armed for an entry that has an alarm, and no other");
        self.free.push(entry);
        armed
    }

    pub(super) fn clear(&mut self) {
        *self = Self::with_room(self.places.len());
    }
}
