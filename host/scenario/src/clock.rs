//! The calls proper, apart from what a layer does to carry values over.

use std::cell::Cell;
use std::time::{Duration, Instant};

thread_local! {
    static SPENT: Cell<Option<Duration>> = const { Cell::new(None) };
}

/// From here on the time of calls proper is added up.
pub fn start_clock() {
    SPENT.set(Some(Duration::ZERO));
}

/// What was added up.
pub fn stop_clock() -> Duration {
    SPENT.take().unwrap_or_default()
}

/// Runs a call proper. Layers whose calls are to be measured run them in this.
pub fn proper<T>(call: impl FnOnce() -> T) -> T {
    let Some(before) = SPENT.get() else {
        return call_proper(call);
    };
    let start = Instant::now();
    let result = call_proper(call);
    SPENT.set(Some(before + start.elapsed()));
    result
}

/// A name for profilers.
#[inline(never)]
fn call_proper<T>(call: impl FnOnce() -> T) -> T {
    call()
}
