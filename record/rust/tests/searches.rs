//! A search must not accept a run that shows nothing, or a lock that decides by a look.
// SPDX-License-Identifier: Apache-2.0 OR MIT
#![cfg(feature = "check")]

use std::panic;
use std::sync::atomic::{AtomicUsize, Ordering::SeqCst};
use std::time::Duration;

use lockreplay_record::{
    call, explore, note, operation, switch, AtomicU16, AtomicU8, Call, Error, Lock, Mode, Run,
    Schedule, Step, Word,
};

const LIMIT: Duration = Duration::from_secs(60);
const EMPTY: &str = "nothing was noted, so nothing was checked: does the lock say its calls, and \
                     are its atomics `noted`?";

/// The text of a panic.
fn panic_of(work: impl FnOnce() + panic::UnwindSafe) -> String {
    let payload = panic::catch_unwind(work).expect_err("it did not panic");
    payload.downcast_ref::<String>().cloned().unwrap_or_default()
}

#[test]
fn a_search_in_which_nothing_is_noted_panics() {
    let driver_of_nothing = || {
        explore(Run::builder(Lock::Mcs, 2), 2, || (), |(), _| {});
    };
    assert_eq!(panic_of(driver_of_nothing), EMPTY);
    let words_without_names = || {
        let new = || [AtomicU8::new(0), AtomicU8::new(0)];
        explore(Run::builder(Lock::Ticket, 2).bits(8), 1, new, |[next, serving], _| {
            let ticket = next.fetch_add(1, SeqCst);
            while serving.load(SeqCst) != ticket {}
            serving.store(ticket + 1, SeqCst);
        });
    };
    assert_eq!(panic_of(words_without_names), EMPTY);
}

#[test]
fn a_run_in_which_nothing_is_noted_is_not_accepted() -> Result<(), Error> {
    let run = Run::builder(Lock::Mcs, 2).mode(Mode::Seed(1)).open()?;
    run.threads(LIMIT, |_| switch())?;
    assert_eq!(run.check().map_err(|error| error.to_string()), Err(EMPTY.to_string()));
    Ok(())
}

/// No line of the schedule is due.
#[test]
fn an_empty_schedule_is_followed() -> Result<(), Error> {
    let schedule: Schedule = "lock mcs threads 2\n".parse()?;
    let run = Run::builder(Lock::Mcs, 2).mode(Mode::Follow(schedule)).open()?;
    run.threads(LIMIT, |_| {})?;
    run.check()
}

/// One thread notes nothing, as one that takes no lock.
#[test]
fn a_search_in_which_one_thread_notes_is_accepted() {
    let new = || AtomicU8::new(0).noted(Word::NextTicket);
    let runs = explore(Run::builder(Lock::Ticket, 2).bits(8), 1, new, |next, thread| {
        if thread == 1 {
            let _call = call(Call::Acquire);
            next.fetch_add(1, SeqCst);
            operation(|| note(Step::read(Word::NowServing, 0)));
        }
    });
    assert!(runs > 0);
}

/// Each of two threads looks, and goes on if it found the flag down. Both do if one of them looks
/// between the other one's look and its store.
#[test]
fn others_come_between_a_peek_and_the_next_operation() -> Result<(), Error> {
    for reduces in [true, false] {
        let mut entered = Vec::new();
        for run in Run::builder(Lock::Ticket, 2).reduced(reduces).explore(1) {
            let (flag, entries) = (AtomicU8::new(0), AtomicUsize::new(0));
            run?.threads(LIMIT, |_| {
                if flag.peek(SeqCst) == 0 {
                    flag.store(1, SeqCst);
                    entries.fetch_add(1, SeqCst);
                }
            })?;
            entered.push(entries.into_inner());
        }
        assert!(entered.contains(&1) && entered.contains(&2), "{entered:?}");
    }
    Ok(())
}

/// A ticket lock whose words are noted by hand.
struct TicketLock {
    next: AtomicU16,
    serving: AtomicU16,
}

impl TicketLock {
    fn acquire(&self) {
        let _call = call(Call::Acquire);
        let ticket = operation(|| {
            let found = self.next.fetch_add(1, SeqCst);
            note(Step::add(Word::NextTicket, u64::from(found)));
            found
        });
        while self.look() != ticket {}
    }

    fn look(&self) -> u16 {
        operation(|| {
            let found = self.serving.load(SeqCst);
            note(Step::read(Word::NowServing, u64::from(found)));
            found
        })
    }

    fn release(&self) {
        let _call = call(Call::Release);
        let left = self.look() + 1;
        operation(|| {
            self.serving.store(left, SeqCst);
            note(Step::write(Word::NowServing, u64::from(left)));
        });
    }

    /// Another thread may take a ticket after the look, and then this one does not get the lock.
    fn try_acquire(&self, look: fn(&AtomicU16) -> u16) -> bool {
        let found = self.next.load(SeqCst);
        switch();
        if look(&self.serving) != found {
            return false;
        }
        operation(|| {
            let ticket = u64::from(self.next.fetch_add(1, SeqCst));
            drop(call(Call::Acquire));
            note(Step::add(Word::NextTicket, ticket));
            note(Step::read(Word::NowServing, ticket));
        });
        true
    }
}

#[test]
fn a_try_that_decides_by_a_look_is_refused() {
    let looks: [fn(&AtomicU16) -> u16; 2] = [|word| word.peek(SeqCst), |word| word.load(SeqCst)];
    for (look, reduces) in looks.into_iter().flat_map(|look| [(look, true), (look, false)]) {
        let said = panic_of(move || {
            let new = || TicketLock { next: AtomicU16::new(0), serving: AtomicU16::new(0) };
            let setup = Run::builder(Lock::Ticket, 2).bits(16).reduced(reduces);
            explore(setup, 2, new, |lock, _| {
                lock.acquire();
                lock.release();
                switch();
                if lock.try_acquire(look) {
                    switch();
                    lock.release();
                }
            });
        });
        assert!(said.contains("FoundOther"), "{said}");
    }
}
