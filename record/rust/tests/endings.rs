//! Threads that have not ended, and what the check says of their last calls.
// SPDX-License-Identifier: Apache-2.0 OR MIT
#![cfg(feature = "check")]

mod ticket;

use std::panic::{catch_unwind, AssertUnwindSafe};
use std::sync::atomic::Ordering::SeqCst;
use std::thread;
use std::time::Duration;

use lockreplay_record::{AtomicBool, Call, Ending, Error, Lock, Mode, Run, RunBuilder};
use ticket::TicketLock;

const LIMIT: Duration = Duration::from_secs(60);
const SHORT: Duration = Duration::from_secs(1);

fn setup(threads: usize) -> RunBuilder {
    Run::builder(Lock::Ticket, threads).bits(8)
}

/// The thread has the lock when its time is over, and no call.
#[test]
fn a_thread_that_is_stopped_between_its_calls() -> Result<(), Error> {
    for mode in [Mode::Seed(1), Mode::Ordered] {
        let (lock, flag) = (TicketLock::new(), AtomicBool::new(false));
        let run = setup(1).mode(mode).open()?;
        let ending = run.threads(SHORT, |_| {
            lock.make(Call::Acquire);
            thread::sleep(2 * SHORT);
            while !flag.load(SeqCst) {}
        })?;
        assert_eq!(ending, Ending::Stopped(vec![0]));
        run.check()?;
    }
    Ok(())
}

/// Thread 0 panics, and thread 1 has the lock when that stops it.
#[test]
fn a_thread_that_another_one_stops_between_its_calls() -> Result<(), Error> {
    let (lock, is_in) = (TicketLock::new(), AtomicBool::new(false));
    let run = setup(2).mode(Mode::Seed(1)).open()?;
    let work = AssertUnwindSafe(|| {
        run.threads(LIMIT, |log| {
            if log.thread() == 1 {
                lock.make(Call::Acquire);
                is_in.store(true, SeqCst);
            }
            while !is_in.load(SeqCst) {}
            assert_eq!(log.thread(), 1, "this test panics");
            while is_in.load(SeqCst) {}
        })
    });
    assert!(catch_unwind(work).is_err());
    run.check()
}

/// A thread takes the lock twice, and its log has no room for the second time, in which it waits.
#[test]
fn a_thread_that_is_stopped_after_its_log_was_full() -> Result<(), Error> {
    let lock = TicketLock::new();
    let run = setup(1).mode(Mode::Ordered).room(3).open()?;
    let ending = run.threads(SHORT, |_| (0..2).for_each(|_| lock.make(Call::Acquire)))?;
    assert_eq!(ending, Ending::Stopped(vec![0]));
    run.check()
}

/// The numbers of a run are refused in each mode before anything is drawn.
#[test]
fn a_run_of_too_many_threads() {
    for mode in [Mode::Free, Mode::Seed(1), Mode::Pct { seed: 1, depth: 3, steps: 9 }] {
        let opened = setup(usize::MAX).mode(mode).open();
        let said = opened.expect_err("no run has so many").to_string();
        assert_eq!(said, format!("a run has 1 to 64 threads, not {}", usize::MAX));
    }
}
