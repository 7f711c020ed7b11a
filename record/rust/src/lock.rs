//! Which lock a run is of, and what the header of its texts says.
// SPDX-License-Identifier: Apache-2.0 OR MIT

use std::fmt;
use std::str::FromStr;

use crate::error::Error;

/// The threads that a run can have at most.
pub(crate) const MOST_THREADS: usize = 64;
/// The width of the widest counters, and of those that never wrap around.
pub(crate) const MOST_BITS: u32 = 64;

/// A lock whose runs `locktrace` can check.
///
/// ```
/// use lockreplay_record::{Error, Lock};
///
/// assert_eq!("rw-fifo".parse::<Lock>()?, Lock::RwFifo);
/// let refused = "MCS".parse::<Lock>().unwrap_err().to_string();
/// assert!(refused.starts_with("there is no lock 'MCS': the locks are ticket, mcs, "));
/// # Ok::<(), Error>(())
/// ```
#[derive(Clone, Copy, Debug, PartialEq, Eq, Hash)]
pub enum Lock {
    // generated: locks
    /// The ticket lock.
    Ticket,
    /// The MCS lock.
    Mcs,
    /// The simple read-write lock, a monitor.
    RwSimple,
    /// The FIFO read-write lock, a monitor.
    RwFifo,
    // end
}

// generated: number of locks
const LOCKS: usize = 4;
// end

impl Lock {
    /// All locks.
    pub const ALL: [Lock; LOCKS] = [
        // generated: locks
        Lock::Ticket,
        Lock::Mcs,
        Lock::RwSimple,
        Lock::RwFifo,
        // end
    ];

    /// The lock's name in a trace.
    #[must_use]
    pub fn name(self) -> &'static str {
        match self {
            // generated: locks
            Lock::Ticket => "ticket",
            Lock::Mcs => "mcs",
            Lock::RwSimple => "rw-simple",
            Lock::RwFifo => "rw-fifo",
            // end
        }
    }

    /// How many words it has that are in no thread's record. No step of a lock under a monitor is
    /// on one word.
    fn own_words(self) -> usize {
        match self {
            // generated: locks
            Lock::Ticket => 2,
            Lock::Mcs => 1,
            Lock::RwSimple => 0,
            Lock::RwFifo => 0,
            // end
        }
    }

    pub(crate) fn is_monitor(self) -> bool {
        self.own_words() == 0
    }
}

impl fmt::Display for Lock {
    fn fmt(&self, out: &mut fmt::Formatter<'_>) -> fmt::Result {
        out.write_str(self.name())
    }
}

impl FromStr for Lock {
    type Err = Error;

    fn from_str(name: &str) -> Result<Lock, Error> {
        let found = Lock::ALL.into_iter().find(|lock| lock.name() == name);
        found.ok_or_else(|| Error::UnknownLock(name.to_owned()))
    }
}

/// The contents of the first line of a run's texts.
#[derive(Clone, Copy, Debug)]
pub(crate) struct Header {
    pub(crate) lock: Lock,
    pub(crate) threads: usize,
    pub(crate) bits: u32,
}

impl Header {
    /// The header, if a trace may have it.
    pub(crate) fn checked(self) -> Result<Header, Error> {
        let Header { threads, bits, .. } = self;
        if !(1..=MOST_THREADS).contains(&threads) {
            return Err(Error::Threads(threads));
        }
        if !(2..=MOST_BITS).contains(&bits) {
            return Err(Error::Bits(bits));
        }
        if threads.checked_shr(bits).unwrap_or(0) > 0 {
            return Err(Error::NarrowCounters { threads, bits });
        }
        Ok(self)
    }
}

impl fmt::Display for Header {
    fn fmt(&self, out: &mut fmt::Formatter<'_>) -> fmt::Result {
        write!(out, "lock {} threads {} bits {}", self.lock, self.threads, self.bits)
    }
}
