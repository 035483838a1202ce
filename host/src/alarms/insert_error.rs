//! An alarm that was not armed.

use crate::refusal::Refusal;
use std::error::Error;
use std::fmt;

/// Why an alarm was not armed, and its value.
///
/// ```
/// use juopmorin::{Alarms, Refusal};
/// use std::time::Duration;
///
/// let mut alarms = Alarms::with_room(1)?;
/// alarms.insert("first", Duration::from_secs(1)).expect("there is room");
/// let error = alarms.insert("second", Duration::from_secs(1)).unwrap_err();
/// assert_eq!((error.value, error.refusal), ("second", Refusal::NoFreeSlot));
/// # Ok::<(), Refusal>(())
/// ```
#[derive(Clone, Copy, PartialEq, Eq)]
pub struct InsertError<T> {
    /// The value that was to be inserted.
    pub value: T,
    /// Why it was not.
    pub refusal: Refusal,
}

impl<T> fmt::Debug for InsertError<T> {
    fn fmt(&self, out: &mut fmt::Formatter<'_>) -> fmt::Result {
        out.debug_struct("InsertError").field("refusal", &self.refusal).finish_non_exhaustive()
    }
}

impl<T> fmt::Display for InsertError<T> {
    fn fmt(&self, out: &mut fmt::Formatter<'_>) -> fmt::Result {
        write!(out, "the alarm was not armed: {}", self.refusal)
    }
}

impl<T> Error for InsertError<T> {}
