//! How long calls take.

use std::time::Instant;

/// Microseconds for each of `count` calls.
pub fn timed(count: usize, calls: impl FnOnce()) -> f64 {
    let from = Instant::now();
    calls();
    from.elapsed().as_secs_f64() * 1e6 / count as f64
}
