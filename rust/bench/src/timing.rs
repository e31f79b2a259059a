//! How long a call takes. Time is taken in batches so short that most are not interrupted, and the middle one counts:
//! so other work on the machine shows little.

use std::time::{Duration, Instant};

/// At least this long is a batch.
const LEAST: Duration = Duration::from_micros(100);
const BATCHES: usize = 41;

/// Nanoseconds of one `call`: the median of many batches.
pub fn nanoseconds(mut call: impl FnMut()) -> f64 {
    let mut batch = |count: u64| {
        let start = Instant::now();
        for _ in 0..count {
            call();
        }
        start.elapsed()
    };
    let mut count = 16;
    while batch(count) < LEAST {
        count *= 2;
    }
    let times: Vec<f64> = (0..BATCHES)
        .map(|_| batch(count).as_nanos() as f64 / count as f64)
        .collect();
    median(&times)
}

/// The middle one.
pub fn median(times: &[f64]) -> f64 {
    let mut sorted = times.to_vec();
    sorted.sort_by(f64::total_cmp);
    sorted[sorted.len() / 2]
}
