//! Trips of the Rust's overflow checks: caught and told apart from every other panic.

use std::cell::Cell;
use std::panic::{self, AssertUnwindSafe};

thread_local! {
    static WATCHED: Cell<bool> = const { Cell::new(false) };
}

/// From now on a watched trip is silent; any other panic is shown and ends the oracle.
pub fn install() {
    panic::set_hook(Box::new(|info| {
        let text = info.payload().downcast_ref::<&str>().copied().unwrap_or("");
        let overflow = text.starts_with("attempt to ") && text.ends_with(" with overflow");
        if !(WATCHED.get() && overflow) {
            eprintln!("oracle: {info}");
            std::process::exit(101);
        }
    }));
}

/// Runs the Rust; nothing where its overflow check trips.
pub fn watch<R>(work: impl FnOnce() -> R) -> Option<R> {
    WATCHED.set(true);
    let result = panic::catch_unwind(AssertUnwindSafe(work)).ok();
    WATCHED.set(false);
    result
}
