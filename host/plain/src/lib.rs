//! Safe Rust over the proved alarm wheel.
//!
//! The functions behind this crate are written in Rattle and proved to meet their contracts; the static libraries that
//! hold them are written by `tools/prove NAME_c`. None of them asks anything of its caller, so every function here is
//! safe: what cannot be answered is `None` or a refusal by number.
//!
//! - [`Wheel`]: the wheel and its records, with every call.
//! - [`place`]: where the wheel places a deadline (level and index).
//! - [`word_index`]: the word of a hash in a frequency sketch.

mod numbers;
mod wheel;

pub use numbers::{place, word_index, Place};
pub use wheel::{Clock, Entry, Event, Handle, Node, Refusal, Rescheduled, Wheel, BUCKETS, NONE};
