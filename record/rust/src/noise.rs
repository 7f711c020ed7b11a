//! Holds a thread up at times, by the numbers of a seed: splitmix64 (Steele, Lea and Flood, 2014).
// SPDX-License-Identifier: Apache-2.0 OR MIT

use std::hint;
use std::thread;
use std::time::Duration;

/// A thread is held up at one operation in this many.
const ONE_IN: u64 = 8;
const MOST_NANOSECONDS: u64 = 100_000;
const MOST_SPINS: u64 = 5_000;

/// The numbers of one seed, one after another.
#[derive(Clone, Debug)]
pub(crate) struct Draw(u64);

impl Draw {
    /// Another row of numbers for each thread of the same seed.
    pub(crate) fn of_thread(seed: u64, thread: usize) -> Draw {
        let mut threads = Draw(seed);
        let own = (0..thread).fold(threads.next(), |_, _| threads.next());
        Draw(own)
    }

    fn next(&mut self) -> u64 {
        self.0 = self.0.wrapping_add(0x9E37_79B9_7F4A_7C15);
        let mixed = (self.0 ^ (self.0 >> 30)).wrapping_mul(0xBF58_476D_1CE4_E5B9);
        let mixed = (mixed ^ (mixed >> 27)).wrapping_mul(0x94D0_49BB_1331_11EB);
        mixed ^ (mixed >> 31)
    }
}

/// Holds the thread up, or does nothing, by the next number.
pub(crate) fn make(draw: &mut Draw) {
    let number = draw.next();
    let amount = number >> 32;
    match number % (3 * ONE_IN) {
        0 => thread::yield_now(),
        1 => thread::sleep(Duration::from_nanos(amount % MOST_NANOSECONDS)),
        2 => (0..amount % MOST_SPINS).for_each(|_| hint::spin_loop()),
        _ => {}
    }
}
