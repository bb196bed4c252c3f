//! What the two programs of this package share: filled ledgers, the submissions that fill one, those
//! that are timed, and the clock.

#![forbid(unsafe_code)]

pub mod clock;
pub mod fill;
pub mod history;
pub mod stream;
