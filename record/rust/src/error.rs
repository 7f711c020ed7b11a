//! Mistakes in the use of the crate, each with a sentence.
// SPDX-License-Identifier: Apache-2.0 OR MIT

use std::error;
use std::fmt;
use std::io;
use std::path::PathBuf;

use crate::lock::{Lock, MOST_BITS, MOST_THREADS};

/// Why a run was not opened, not entered, not saved or not accepted, or a schedule not read.
#[derive(Debug)]
#[non_exhaustive]
pub enum Error {
    /// No lock has this name in a trace.
    UnknownLock(String),
    /// A run cannot have so many threads.
    Threads(usize),
    /// No counter has this width.
    Bits(u32),
    /// There are not fewer threads than the counter has values.
    NarrowCounters {
        /// The threads of the run.
        threads: usize,
        /// The width of its counters.
        bits: u32,
    },
    /// Memory for the logs was refused.
    OutOfMemory {
        /// How many logs were asked for.
        logs: usize,
        /// How many moves each of them was to have room for.
        room: usize,
    },
    /// The run has no thread of this number.
    NoSuchThread {
        /// The number that was asked for.
        thread: usize,
        /// The threads of the run.
        threads: usize,
    },
    /// This thread of the run has its log already: a run is recorded once.
    ThreadTaken(usize),
    /// The thread that asks has a log already.
    AlreadyRecorded,
    /// The run was stopped before all of its threads had come.
    Stopped,
    /// A thread could not be started.
    Start(io::Error),
    /// A line of a text is not a line of a schedule.
    NoSchedule {
        /// Its number, from 1.
        line: usize,
    },
    /// A schedule is of another lock, or of other threads or counters, than the run.
    OtherRun {
        /// The run's lock, threads and counters, as the header of its trace.
        run: String,
    },
    /// Spurious wakeups were asked for in a mode that has no seed.
    NoSeed,
    /// A run was to be checked whose moves have no known order.
    NoOrder,
    /// A trace is refused.
    Refused {
        /// The line of the trace, from 1.
        line: u64,
        /// Where in the source its move was made, and the move: `src/lock.rs:41, '0 cas ..'`.
        made: String,
        /// The fault, and the step of the published lock there.
        reason: String,
    },
    /// A run was to be checked in which nothing was noted.
    Empty,
    /// A thread was stopped inside a call that the lock's machine has completed.
    GoesOn {
        /// The thread.
        thread: usize,
    },
    /// A thread has ended, and its call has a step left.
    EndsInCall {
        /// The thread.
        thread: usize,
    },
    /// In a run that is explored a thread did not do what it had done after the same turns.
    Strayed,
    /// A file could not be read.
    Read {
        /// The file.
        path: PathBuf,
        /// The system's reason.
        error: io::Error,
    },
    /// A file could not be written.
    Save {
        /// The file, or the folder.
        path: PathBuf,
        /// The system's reason.
        error: io::Error,
    },
}

impl fmt::Display for Error {
    fn fmt(&self, out: &mut fmt::Formatter<'_>) -> fmt::Result {
        match self {
            Error::UnknownLock(name) => {
                let names = Lock::ALL.map(Lock::name).join(", ");
                write!(out, "there is no lock '{name}': the locks are {names}")
            }
            Error::Threads(threads) => {
                write!(out, "a run has 1 to {MOST_THREADS} threads, not {threads}")
            }
            Error::Bits(bits) => {
                write!(out, "a counter has 2 to {MOST_BITS} bits, not {bits}")
            }
            Error::NarrowCounters { threads, bits } => write!(
                out,
                "{threads} threads are too many for counters of {bits} bits: \
                 there must be fewer threads than a counter has values"
            ),
            Error::OutOfMemory { logs, room } => {
                write!(out, "no memory for {logs} logs of {room} moves each")
            }
            Error::NoSuchThread { thread, threads } => {
                write!(out, "there is no thread {thread}: the run has {threads}, counted from 0")
            }
            Error::ThreadTaken(thread) => {
                write!(out, "thread {thread} has its log already: open a run for each recording")
            }
            Error::AlreadyRecorded => {
                write!(out, "this thread has a log already: drop that before it enters a run")
            }
            Error::Stopped => {
                write!(out, "the run was stopped before all of its threads had come")
            }
            Error::Start(error) => write!(out, "a thread was not started: {error}"),
            Error::Read { path, error } | Error::Save { path, error } => {
                write!(out, "{}: {error}", path.display())
            }
            other => other.fmt_of_moves(out),
        }
    }
}

impl Error {
    /// A fault of the moves of a run, or of those of its schedule.
    fn fmt_of_moves(&self, out: &mut fmt::Formatter<'_>) -> fmt::Result {
        match self {
            Error::NoSchedule { line } => write!(out, "line {line} is no line of a schedule"),
            Error::OtherRun { run } => write!(out, "the schedule is not of this run: {run}"),
            Error::NoSeed => out.write_str("wakes for nothing are drawn by the seed of a mode"),
            Error::NoOrder => out.write_str("of free threads `locktrace order` finds the order"),
            Error::Empty => out.write_str(
                "nothing was noted, so nothing was checked: does the lock say its calls, and are \
                 its atomics `noted`?",
            ),
            Error::Refused { line, made, reason } => {
                write!(out, "refused at line {line} of the trace, {made}: {reason}")
            }
            Error::GoesOn { thread } => {
                write!(out, "thread {thread} goes on with a call that is over")
            }
            Error::EndsInCall { thread } => write!(out, "thread {thread} has ended inside a call"),
            Error::Strayed => out.write_str("the driver does not do the same after the same turns"),
            _ => Ok(()),
        }
    }
}

impl error::Error for Error {
    fn source(&self) -> Option<&(dyn error::Error + 'static)> {
        match self {
            Error::Start(error) | Error::Read { error, .. } | Error::Save { error, .. } => {
                Some(error)
            }
            _ => None,
        }
    }
}
