//! The real threads that wait for a notification of a condition variable.
//!
//! Each looks now and then whether its run was stopped, and does not wait in the system meanwhile.
//! So a notification has to be noted here for the thread that it is for: else it could be lost, or
//! wake another thread too.
// SPDX-License-Identifier: Apache-2.0 OR MIT

use std::sync::atomic::{AtomicU64, Ordering::Relaxed};

/// A bit for each thread of a run: it waits, and was not notified.
#[derive(Debug, Default)]
pub(crate) struct Waiters(AtomicU64);

/// A thread that waits, until this is dropped.
#[derive(Debug)]
pub(crate) struct Waiter<'a> {
    waiters: &'a Waiters,
    bit: u64,
}

impl Waiters {
    pub(crate) const fn none() -> Waiters {
        Waiters(AtomicU64::new(0))
    }

    pub(crate) fn add(&self, thread: usize) -> Waiter<'_> {
        let bit = 1 << thread;
        self.0.fetch_or(bit, Relaxed);
        Waiter { waiters: self, bit }
    }

    /// Notifies all threads, or one. Returns whether there was one.
    pub(crate) fn notify(&self, all: bool) -> bool {
        let left = |waiting: u64| if all { 0 } else { waiting & waiting.wrapping_sub(1) };
        self.0.fetch_update(Relaxed, Relaxed, |waiting| Some(left(waiting))) != Ok(0)
    }
}

impl Waiter<'_> {
    pub(crate) fn is_notified(&self) -> bool {
        self.waiters.0.load(Relaxed) & self.bit == 0
    }
}

impl Drop for Waiter<'_> {
    fn drop(&mut self) {
        self.waiters.0.fetch_and(!self.bit, Relaxed);
    }
}
