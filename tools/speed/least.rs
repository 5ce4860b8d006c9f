//! The least time of many calls.

use std::time::Duration;

/// How often each call is made.
pub const CALLS: u32 = 100;

/// The least of the times that it was told.
#[derive(Clone, Copy)]
pub struct Least {
    nanos: u128,
}

impl Least {
    /// It was told none.
    pub fn none() -> Least {
        Least { nanos: u128::MAX }
    }

    /// It is told one more time.
    pub fn take(&mut self, time: Duration) {
        self.nanos = self.nanos.min(time.as_nanos());
    }

    /// The least time in nanoseconds.
    pub fn nanos(&self) -> u128 {
        self.nanos
    }
}
