//! Records runs of a lock that is written in Rust, for `locktrace` to check.
//!
//! A ticket lock, an MCS lock or a read-write lock of your own, built with the atomics or the
//! monitor of this crate, writes down what each of its steps found and left. `locktrace` then says
//! whether the run is one of the published algorithm, and if not, at which step it differs.
//!
//! # From a lock to a checked run
//!
//! 1. Take the atomics from this crate in place of those of the standard library, and say once
//!    which [`Word`] of the lock each of them is. A read-write lock takes [`Mutex`] and [`Condvar`]
//!    from here, and [notes](MutexGuard::note) the outcome of each section.
//! 2. Say where each [`call`] begins. In an MCS lock, say which record is the thread's
//!    [own](own_record).
//! 3. Open a [`Run`] in some [`Mode`], let its [threads](Run::threads) work, and
//!    [save](Run::save) it.
//!
#![cfg_attr(feature = "record", doc = "```")]
#![cfg_attr(not(feature = "record"), doc = "```ignore")]
//! use lockreplay_record::{call, switch, AtomicU8, Call, Ending, Error, Lock, Mode, Run, Word};
//! use std::sync::atomic::Ordering::{Acquire, Relaxed, Release};
//! use std::time::Duration;
//!
//! struct TicketLock {
//!     next_ticket: AtomicU8,
//!     now_serving: AtomicU8,
//! }
//!
//! impl TicketLock {
//!     fn acquire(&self) {
//!         let _call = call(Call::Acquire);
//!         let ticket = self.next_ticket.fetch_add(1, Relaxed);
//!         while self.now_serving.load(Acquire) != ticket {
//!             std::thread::yield_now();
//!         }
//!     }
//!
//!     fn release(&self) {
//!         let _call = call(Call::Release);
//!         let served = self.now_serving.load(Relaxed);
//!         self.now_serving.store(served.wrapping_add(1), Release);
//!     }
//! }
//!
//! fn main() -> Result<(), Error> {
//!     let lock = TicketLock {
//!         next_ticket: AtomicU8::new(0).noted(Word::NextTicket),
//!         now_serving: AtomicU8::new(0).noted(Word::NowServing),
//!     };
//!     let run = Run::builder(Lock::Ticket, 3).bits(8).mode(Mode::Seed(17)).open()?;
//!     let ending = run.threads(Duration::from_secs(60), |_log| {
//!         for _ in 0..100 {
//!             lock.acquire();
//!             switch(); // others try meanwhile
//!             lock.release();
//!         }
//!     })?;
//!     assert_eq!(ending, Ending::Complete);
//! #   let logs = std::env::temp_dir().join("lockreplay-record-doc");
//!     run.save(&logs)?; // then: locktrace check logs/run.trace
//!     Ok(())
//! }
//! ```
//!
//! The examples `ticket`, `mcs`, `rw_simple` and `rw_fifo` are four whole locks. The steps that are
//! due, and how to read a refusal, are in `docs/RECORDING.md` of the repository.
//!
//! # First by seeds, then by real threads
//!
//! With [`Mode::Seed`] one thread runs at a time. Before each operation on an atomic, noted or not,
//! a number of the seed says which thread is next. So a swap that is written as a load and a store
//! is seen as such, and the same seed gives the same run again. With [`Mode::Free`] the threads run
//! as they like, and `locktrace order` finds the order of their logs; [`Mode::Noise`] holds them up
//! at times, so that more of them meet. [`Mode::Ordered`] is between the two.
//!
//! [`Mode::Pct`] draws few changes of the turn, so that a thread may be held up for long. Two ways
//! leave nothing to chance. With [`Mode::Follow`] the lock follows a schedule, and a run
//! ends where a move is not that of its line. [`RunBuilder::explore`] makes all runs of a few
//! threads with few preemptions. Each run's [trace](Run::trace) is for `locktrace check`.
//!
//! Threads of a monitor may have spurious wakeups ([`RunBuilder::spurious`]). With the feature
//! `check`, `Run::check` checks a run in the process, and `explore` all runs of a lock's test: no
//! other tool is needed. The engine of all this is the recorder for C, which the build compiles.
//!
//! A run that hangs ends all the same: a seeded one when nothing but failed polls was seen for
//! 20,000 turns ([`Ending::Hangs`]), others when their time is over ([`Ending::Stopped`]). The
//! threads unwind at their next operation on an atomic, without a message, and their logs end
//! there. That needs `panic = "unwind"`, as tests have it. A thread that hangs elsewhere, as in a
//! loop without an atomic, cannot be stopped.
//!
//! # Where a lock's steps differ from the published ones
//!
//! - A flag is the other way round, or nil is not 0: [`noted_as`](AtomicBool::noted_as), with the
//!   value that the word has in a trace.
//! - A release by one increment of the served ticket: `fetch_add`. It is noted as the read and the
//!   write.
//! - A release that stores its ticket plus one, without a load: a [`note`] of the read and the
//!   store, in one [`operation`].
//! - Both counters in one word: an atomic that is not noted, and [`note`]s in one [`operation`].
//! - A look that the algorithm does not make: [`peek`](Atomic::peek). It is no step, and other
//!   threads may have their turns around it.
//! - A record on the stack, on the heap or from a pool: [`own_record`] in each acquire.
//! - A monitor of other parts: a [`Mutex`] around its state, and a [`Condvar`].
//!
//! An address in no thread's own record is `of 255` in a trace, and a pointer to it 256: then
//! [`own_record`] is missing.
//!
//! # What is not recorded
//!
//! A thread that has no [`Log`], and one that panics, records nothing: its operations are made as
//! they are. So a lock with these atomics can be used without a run; each operation then costs a
//! look at a thread-local variable. Without the feature `record`, which is on by default, the same
//! types are those of the standard library in all but name: they are as large, and nothing of the
//! notes is left. A lock's own crate depends on this one with `default-features = false`, and its
//! tests with them.
// SPDX-License-Identifier: Apache-2.0 OR MIT
#![deny(unsafe_code)] // but for calls of C
#![cfg_attr(not(feature = "record"), forbid(unsafe_code))]
#![warn(missing_docs)]
// The text above is about the crate with its feature.
#![cfg_attr(not(feature = "record"), allow(rustdoc::broken_intra_doc_links))]

mod atomic;
#[cfg_attr(not(feature = "record"), path = "off.rs")]
mod current;
mod monitor;
mod moves;
mod plain;
mod whole;

#[cfg(feature = "record")]
mod builder;
#[cfg(feature = "check")]
mod check;
#[cfg(feature = "record")]
mod engine;
#[cfg(feature = "record")]
mod error;
#[cfg(feature = "record")]
mod explore;
#[cfg(feature = "record")]
mod follow;
#[cfg(feature = "record")]
mod kept;
#[cfg(feature = "record")]
mod lock;
#[cfg(feature = "record")]
mod mapped;
#[cfg(feature = "record")]
mod mode;
#[cfg(feature = "record")]
mod noise;
#[cfg(feature = "record")]
mod recorder;
#[cfg(feature = "record")]
mod run;
#[cfg(feature = "record")]
mod save;
#[cfg(feature = "record")]
mod schedule;
#[cfg(feature = "record")]
mod search;
#[cfg(feature = "record")]
mod waiters;

pub use atomic::{
    Atomic, AtomicBool, AtomicI16, AtomicI32, AtomicI64, AtomicI8, AtomicIsize, AtomicPtr,
    AtomicU16, AtomicU32, AtomicU64, AtomicU8, AtomicUsize,
};
pub use current::{call, note, operation, own_record, switch, InCall};
#[cfg(feature = "check")]
pub use explore::explore;
pub use monitor::{Condvar, Mutex, MutexGuard};
pub use moves::{Call, Outcome, Step, Word};
#[cfg(feature = "record")]
pub use {
    builder::RunBuilder,
    error::Error,
    explore::Explore,
    follow::Departure,
    lock::Lock,
    mode::Mode,
    run::{Ending, Log, Run},
    schedule::Schedule,
};
