//! What goes into the calls of a wheel and what they answer.

use crate::numbers::Place;

/// An entry's deadline, if it has one, and its generation.
///
/// ```
/// use juopmorin::Entry;
///
/// assert_eq!(Entry::due(10), Entry { deadline: Some(10), generation: 0 });
/// assert_eq!(Entry::none(), Entry { deadline: None, generation: 0 });
/// assert_eq!(Entry { generation: 3, ..Entry::due(10) }.generation, 3);
/// ```
#[derive(Clone, Copy, Debug, Default, PartialEq, Eq, Hash)]
pub struct Entry {
    /// In nanoseconds since the origin.
    pub deadline: Option<u64>,
    /// What a call that arms a timer for the entry has to name. The program counts it up to tell a former use of the
    /// entry from the present one; one that reuses no entry leaves it 0.
    pub generation: u32,
}

impl Entry {
    /// With a deadline, in nanoseconds since the origin, and generation 0.
    #[must_use]
    pub const fn due(deadline: u64) -> Self {
        Self { deadline: Some(deadline), generation: 0 }
    }

    /// Without a deadline, generation 0.
    #[must_use]
    pub const fn none() -> Self {
        Self { deadline: None, generation: 0 }
    }
}

/// A timer, by its slot and serial.
#[derive(Clone, Copy, Debug, PartialEq, Eq, Hash)]
pub struct Handle {
    /// The slot of its record.
    pub slot: usize,
    /// Its serial: each timer of a wheel has another.
    pub serial: u64,
}

/// What became of a timer that was rescheduled.
#[derive(Clone, Copy, Debug, PartialEq, Eq, Hash)]
pub enum Outcome {
    /// It stands at the back of the bucket of its entry's deadline.
    Moved,
    /// Its entry has no deadline, so it is gone.
    Removed,
}

/// An event of an advance.
///
/// ```
/// use juopmorin::{time::TICK_NS, Entry, Event, Place, Refusal, Wheel};
///
/// let mut wheel = Wheel::with_room(8, 4)?;
/// wheel.set_entry(2, Entry::due(69 * TICK_NS))?;
/// wheel.schedule(2, 0)?;
///
/// let events = wheel.advance(64 * TICK_NS)?.finish();
/// assert_eq!(events, [Event::Rescheduled { entry: 2, serial: 0, place: Place { level: 0, index: 5 } }]);
///
/// let events = wheel.advance(69 * TICK_NS)?.finish();
/// assert_eq!(events, [Event::Expired { entry: 2, serial: 0, deadline: 69 * TICK_NS }]);
/// # Ok::<(), Refusal>(())
/// ```
#[derive(Clone, Copy, Debug, PartialEq, Eq, Hash)]
pub enum Event {
    /// The timer's deadline has come, and the timer is gone.
    Expired {
        /// The entry that it was armed for.
        entry: usize,
        /// Its serial.
        serial: u64,
        /// The entry's deadline.
        deadline: u64,
    },
    /// The timer was placed anew, and waits on.
    Rescheduled {
        /// The entry that it is armed for.
        entry: usize,
        /// Its serial.
        serial: u64,
        /// The bucket that it stands in now.
        place: Place,
    },
}

/// The answer of a call that was not refused.
#[derive(Debug)]
pub(crate) enum Answer {
    /// Done; of a reschedule: moved.
    Done,
    Armed(Handle),
    Removed,
    End,
    Happened(Event),
    Count(usize),
    Due(u64),
    Never,
}

impl Answer {
    /// The answer that the library told: which one it is, and its values.
    pub(crate) fn told(which: u64, [a, b, c]: [u64; 3]) -> Self {
        match which {
            0 => Self::Done,
            1 => Self::Armed(Handle { slot: a as usize, serial: b }),
            2 => Self::Removed,
            3 => Self::End,
            4 => Self::Happened(Event::Expired { entry: a as usize, serial: b, deadline: c }),
            5 => Self::Happened(Event::Rescheduled { entry: a as usize, serial: b, place: Place::numbered(c) }),
            6 => Self::Count(a as usize),
            7 => Self::Due(a),
            8 => Self::Never,
            _ => panic!("answer {which}: the crate juopmorin and libjuopmorin.a are of different versions"),
        }
    }

    /// For a call that answers nothing else.
    pub(crate) fn done(self) {
        match self {
            Self::Done => (),
            other => other.of_another_version(),
        }
    }

    /// For an answer that the call at hand never gives.
    pub(crate) fn of_another_version(self) -> ! {
        panic!("{self:?} is no answer of this call: the crate juopmorin and libjuopmorin.a are of different versions")
    }
}
