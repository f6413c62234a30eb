//! The time of a call.
use std::time::{Duration, Instant};

/// Nanoseconds a call: the least of twenty rounds, each of as many calls as take some ten milliseconds.
pub fn nanoseconds(mut call: impl FnMut() -> bool) -> f64 {
    let calls = calls_within(Duration::from_millis(10), &mut call);
    (0..20).map(|_| elapsed(calls, &mut call).as_nanos() as f64 / calls as f64).fold(f64::INFINITY, f64::min)
}

fn calls_within(time: Duration, call: &mut impl FnMut() -> bool) -> u32 {
    let mut calls = 1;
    while elapsed(calls, call) < time {
        calls *= 2;
    }
    calls
}

fn elapsed(calls: u32, call: &mut impl FnMut() -> bool) -> Duration {
    let start = Instant::now();
    for _ in 0..calls {
        assert!(std::hint::black_box(call()));
    }
    start.elapsed()
}
