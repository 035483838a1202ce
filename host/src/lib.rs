//! Alarms on a proved timer wheel.
//!
//! The functions behind this crate are written in Rattle and proved to meet their contracts; this crate gives them
//! Rust's own types. Every call answers for every input, and a call that is refused says why and changes nothing.
//!
//! ```
//! use juopmorin::{Entry, Event, Refusal, Wheel};
//!
//! fn main() -> Result<(), Refusal> {
//!     let mut wheel = Wheel::with_room(64, 16)?; // room for 64 timers, and 16 entries that they may be armed for
//!     wheel.set_entry(3, Entry::due(5_000_000_000))?; // entry 3 is due 5 s after the origin
//!     let alarm = wheel.schedule(3, 0)?; // a handle: slot and serial
//!
//!     let mut rung = Vec::new();
//!     for event in wheel.advance(6_000_000_000)? {
//!         if let Event::Expired { entry, deadline, .. } = event {
//!             rung.push((entry, deadline));
//!         }
//!     }
//!     assert_eq!(rung, [(3, 5_000_000_000)]);
//!     assert_eq!(wheel.deschedule(alarm, 0), Err(Refusal::StaleHandle)); // it has been handed out
//!     Ok(())
//! }
//! ```
//!
//! - [`Alarms`]: values with a deadline, inserted, removed, reset and handed out when they are due. Start here.
//! - [`Wheel`]: the wheel itself, with every call of its rules; [`Advance`] reads the events of an advance.
//! - [`time`]: ticks, and nanoseconds from and to [`Duration`](std::time::Duration).
//! - [`place`] and [`word_index`]: where the wheel places a deadline, and the word of a hash in a frequency sketch.
//!
//! # When an alarm rings
//!
//! A time is a whole number of nanoseconds since an origin that the program chooses, up to 2^64 - 1. The wheel looks
//! at no clock: its reading is what it was last advanced to. A tick is 2^30 ns, about 1.07 s.
//!
//! An alarm rings, which is to say that its timer is handed out, at the first advance that is read to its end, goes to
//! the alarm's deadline or later, and enters a later tick than the one it started in. So an alarm
//!
//! - never rings before its deadline, and rings once;
//! - rings on time at an advance to exactly its deadline, where that lies in a later tick than the reading;
//! - rings up to a tick late, about 1.07 s, where deadline and reading share a tick: the next tick has to start first;
//! - waits up to a lap of 64 ticks, about 69 s, where its deadline lies in an earlier tick than the reading at which it
//!   is armed. This is the wheel itself; [`Alarms`] avoids it by arming such an alarm for the reading.
//!
//! An advance to the same or an earlier tick hands out nothing; read to its end, it moves the reading there.
//!
//! A program that sleeps between advances has to know how long. [`Wheel::next_due`] is the smallest deadline among
//! armed timers: sleep until the later of it and [`time::next_tick`] of the reading. [`Alarms::next_due`] is that time
//! already.
//!
//! # What a call costs
//!
//! A call tests every record before it does anything, which is how it can answer whatever the records hold. So its time
//! is linear in the records, that is 165 and one for each timer that there is room for: about 6 us at 166 records and
//! 50 us at 4,096 on the machine that we measured on. It takes up to 224 KiB of stack: a thread that calls it needs
//! that beyond its own. Reading an advance of k events costs k + 1 pulls.
//!
//! # How it is built
//!
//! The functions stand in the static library `libjuopmorin.a`, for Linux on x86-64, which `tools/prove juopmorin`
//! proves and writes to target/staticlib of the repository. The build script looks for it there, or in the folder that
//! the variable `JUOPMORIN_LIBS` names.

#![deny(missing_docs)]
#![deny(unsafe_code)]
#![deny(unsafe_op_in_unsafe_fn)]

mod advance;
pub mod alarms;
mod answer;
#[allow(unsafe_code)]
mod ffi;
mod numbers;
mod records;
mod refusal;
pub mod time;
mod wheel;

pub use advance::Advance;
pub use alarms::Alarms;
pub use answer::{Entry, Event, Handle, Outcome};
pub use numbers::{place, word_index, Place};
pub use records::{Clock, Node, Records, BUCKETS, NONE};
pub use refusal::Refusal;
pub use wheel::Wheel;
