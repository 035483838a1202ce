//! The Rust's deque and wheel as they are, with light stand-ins for what they import: no atomic counts, no locks, an
//! entry's deadline and generation in plain cells. Each is at least as fast as what it stands for.

#![allow(dead_code)]

/// Which part of a cache a deque serves; these serve none.
#[derive(Clone, Copy, Debug, PartialEq, Eq)]
pub enum CacheRegion {
    Other,
}

pub mod time {
    use std::time::Duration;

    /// Nanoseconds since the origin, all of u64.
    #[derive(Clone, Copy, Debug, PartialEq, Eq, PartialOrd, Ord)]
    pub struct Instant(pub u64);

    impl Instant {
        #[inline]
        pub fn saturating_duration_since(&self, earlier: Self) -> Duration {
            Duration::from_nanos(self.0.saturating_sub(earlier.0))
        }
    }
}

pub mod parking_lot {
    use std::cell::UnsafeCell;

    /// For one thread, and never locked twice at a time.
    pub struct Mutex<T>(UnsafeCell<T>);

    impl<T> Mutex<T> {
        pub fn new(value: T) -> Self {
            Self(UnsafeCell::new(value))
        }

        #[inline]
        #[allow(clippy::mut_from_ref)]
        pub fn lock(&self) -> &mut T {
            unsafe { &mut *self.0.get() }
        }
    }
}

pub mod concurrent {
    use std::marker::PhantomData;

    pub mod arc {
        pub use std::rc::Rc as MiniArc;
    }

    pub mod entry_info {
        use crate::common::time::Instant;
        use std::cell::Cell;

        /// An entry: its number, deadline and generation.
        #[derive(Debug)]
        pub struct EntryInfo<K> {
            pub key: K,
            pub deadline: Cell<Option<Instant>>,
            pub generation: Cell<u32>,
        }

        impl<K> EntryInfo<K> {
            #[inline]
            pub fn expiration_state(&self) -> (Option<Instant>, u32) {
                (self.deadline.get(), self.generation.get())
            }
        }
    }

    /// What an entry would keep of its timer: whether it has one.
    pub struct DeqNodes<K> {
        pub armed: bool,
        pub keys: PhantomData<K>,
    }

    impl<K> DeqNodes<K> {
        #[inline]
        pub fn set_timer_node(&mut self, node: Option<()>, _: u32) {
            self.armed = node.is_some();
        }
    }
}

pub mod deque {
    include!(concat!(env!("RUST_SOURCE"), "/src/common/deque.rs"));
}

pub mod timer_wheel {
    use super::parking_lot;
    include!(concat!(env!("RUST_SOURCE"), "/src/common/timer_wheel.rs"));
}

pub mod frequency_sketch {
    include!(concat!(env!("RUST_SOURCE"), "/src/common/frequency_sketch.rs"));

    /// The Rust's private fields and its index function.
    impl FrequencySketch {
        pub fn numbers(&self) -> impl Iterator<Item = u64> + '_ {
            let record = [self.table.len() as u64, u64::from(self.sample_size), u64::from(self.size)];
            self.table.iter().copied().chain(record)
        }

        #[inline]
        pub fn place(&self, hash: u64, depth: u8) -> usize {
            self.index_of(hash, depth)
        }
    }
}
