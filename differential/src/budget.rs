//! Searches can take exponential time. A search that takes too many steps is given up.
use std::cell::Cell;
use std::panic::{AssertUnwindSafe, catch_unwind, panic_any, set_hook, take_hook};
use std::sync::Once;
use std::sync::atomic::{AtomicBool, Ordering};

thread_local! {
    static LEFT: Cell<u64> = const { Cell::new(u64::MAX) };
}

struct TooLong;

/// Whether a program that panics is given up too, as a wrong one may be.
pub static FORGIVING: AtomicBool = AtomicBool::new(false);

pub fn step() {
    LEFT.with(|left| {
        if left.get() == 0 {
            panic_any(TooLong);
        }
        left.set(left.get() - 1);
    });
}

/// The answer, or none after so many steps.
pub fn within<T>(steps: u64, f: impl FnOnce() -> T) -> Option<T> {
    static QUIET: Once = Once::new();
    QUIET.call_once(|| {
        let hook = take_hook();
        set_hook(Box::new(move |info| {
            if !info.payload().is::<TooLong>() {
                hook(info);
            }
        }));
    });
    LEFT.set(steps);
    let result = catch_unwind(AssertUnwindSafe(f));
    LEFT.set(u64::MAX);
    match result {
        Ok(value) => Some(value),
        Err(payload) if payload.is::<TooLong>() || FORGIVING.load(Ordering::Relaxed) => None,
        Err(payload) => std::panic::resume_unwind(payload),
    }
}
