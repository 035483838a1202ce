//! The Rust's deque and wheel as they are, with stand-ins for what they import: `CacheRegion`, `MiniArc`, `EntryInfo`,
//! `DeqNodes`, `Instant` over all of u64, and a `Mutex` for one thread.

#![allow(dead_code)]

/// Which part of a cache a deque serves; the oracle's serve none.
#[derive(Clone, Copy, Debug, PartialEq, Eq)]
pub enum CacheRegion {
    Other,
}

pub mod time {
    use std::time::Duration;

    /// Nanoseconds since the origin, all of u64.
    #[derive(Clone, Copy, Debug, PartialEq, Eq, PartialOrd, Ord)]
    pub struct Instant(pub u64);

    impl Instant {
        pub fn saturating_duration_since(&self, earlier: Self) -> Duration {
            Duration::from_nanos(self.0.saturating_sub(earlier.0))
        }
    }
}

pub mod parking_lot {
    use std::cell::{RefCell, RefMut};

    pub struct Mutex<T>(RefCell<T>);

    impl<T> Mutex<T> {
        pub fn new(value: T) -> Self {
            Self(RefCell::new(value))
        }

        pub fn lock(&self) -> RefMut<'_, T> {
            self.0.borrow_mut()
        }
    }
}

pub mod concurrent {
    use std::cell::RefCell;
    use std::marker::PhantomData;
    use std::rc::Rc;

    pub mod arc {
        pub use std::rc::Rc as MiniArc;
    }

    pub mod entry_info {
        use crate::common::time::Instant;
        use std::cell::Cell;

        /// An entry: its number, deadline and generation.
        #[derive(Debug)]
        pub struct EntryInfo<K> {
            pub key: K,
            pub deadline: Cell<Option<Instant>>,
            pub generation: Cell<u32>,
        }

        impl<K> EntryInfo<K> {
            pub fn expiration_state(&self) -> (Option<Instant>, u32) {
                (self.deadline.get(), self.generation.get())
            }
        }
    }

    /// Slots that the Rust's nodes gave back, the last one last.
    pub type Freed = Rc<RefCell<Vec<usize>>>;

    /// One for each armed timer: it carries the port's slot and serial, and gives the slot back when the node is
    /// dropped.
    pub struct DeqNodes<K> {
        pub slot: Option<usize>,
        pub serial: u64,
        pub freed: Freed,
        pub keys: PhantomData<K>,
    }

    impl<K> DeqNodes<K> {
        pub fn set_timer_node(&mut self, _: Option<()>, _: u32) {}
    }

    impl<K> Drop for DeqNodes<K> {
        fn drop(&mut self) {
            if let Some(slot) = self.slot {
                self.freed.borrow_mut().push(slot);
            }
        }
    }
}

pub mod deque {
    include!(concat!(env!("RUST_SOURCE"), "/src/common/deque.rs"));

    pub type Link<T> = Option<NonNull<DeqNode<T>>>;

    /// Where a cursor stands.
    pub enum At<T> {
        Nowhere,
        End,
        Node(NonNull<DeqNode<T>>),
    }

    /// The Rust's private links.
    impl<T> Deque<T> {
        pub fn ends(&self) -> (Link<T>, Link<T>) {
            (self.head, self.tail)
        }

        pub fn stands(&self) -> At<T> {
            match self.cursor {
                None => At::Nowhere,
                Some(DeqCursor::Done) => At::End,
                Some(DeqCursor::Node(node)) => At::Node(node),
            }
        }

        /// The nodes from head to tail by the next links.
        pub fn members(&self) -> impl Iterator<Item = NonNull<DeqNode<T>>> {
            std::iter::successors(self.head, |node| DeqNode::next_node_ptr(*node))
        }
    }

    impl<T> DeqNode<T> {
        pub fn links(&self) -> (Link<T>, Link<T>) {
            (self.next, self.prev)
        }
    }
}

pub mod timer_wheel {
    use super::parking_lot;
    include!(concat!(env!("RUST_SOURCE"), "/src/common/timer_wheel.rs"));

    pub type TimerPointer<K> = NonNull<DeqNode<TimerNode<K>>>;

    /// The Rust's private fields and placement.
    impl<K> TimerWheel<K> {
        pub fn reading(&self) -> u64 {
            self.current.0
        }

        pub fn place(&self, deadline: Instant) -> (usize, usize) {
            self.bucket_indices(deadline)
        }

        pub fn place_at(reading: u64, deadline: u64) -> (usize, usize) {
            let wheel: Self = Self { wheels: Box::default(), origin: Instant(0), current: Instant(reading) };
            wheel.bucket_indices(Instant(deadline))
        }

        /// The buckets level by level; none before enabling.
        pub fn buckets(&self) -> impl Iterator<Item = &Deque<TimerNode<K>>> {
            self.wheels.iter().flat_map(|level| level.iter())
        }

        pub fn bucket_at(&self, level: usize, index: usize) -> &Deque<TimerNode<K>> {
            &self.wheels[level][index]
        }
    }

    impl<K> TimerNode<K> {
        pub fn sentinel(&self) -> bool {
            self.is_sentinel()
        }

        pub fn at(&self) -> Option<(usize, usize)> {
            self.position()
        }
    }

    /// An advance that is open: the Rust's own iterator, kept from pull to pull.
    pub struct Advance<K: 'static>(*mut TimerEventsIter<'static, K>);

    impl<K: 'static> Advance<K> {
        /// # Safety
        /// The wheel lives and is not moved while the advance is open, and is only read meanwhile.
        pub unsafe fn start(wheel: *mut TimerWheel<K>, reading: u64) -> Self {
            // `advance` hides the type of what it gives; it is a `TimerEventsIter`.
            let events = Box::new((*wheel).advance(Instant(reading)));
            Self(Box::into_raw(events).cast())
        }

        pub fn pull(&mut self) -> Option<TimerEvent<K>> {
            unsafe { (*self.0).next() }
        }

        /// Previous reading, level, and buckets entered on this level so far.
        pub fn stands(&self) -> (u64, usize, u64) {
            let events = unsafe { &*self.0 };
            let previous = events.previous_time.0;
            if events.is_new_level {
                return (previous, events.level, 0);
            }
            let first = (previous >> SHIFT[events.level]) & events.index_mask;
            let entered = u64::from(events.index) - first + u64::from(!events.is_new_index);
            (previous, events.level, entered)
        }
    }

    impl<K: 'static> Drop for Advance<K> {
        fn drop(&mut self) {
            drop(unsafe { Box::from_raw(self.0) });
        }
    }
}
