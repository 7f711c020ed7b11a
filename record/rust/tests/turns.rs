//! How many turns a run has: until it is said to hang, and until a seed wakes a thread.
// SPDX-License-Identifier: Apache-2.0 OR MIT
#![cfg(feature = "record")]

use std::panic::catch_unwind;
use std::sync::atomic::{AtomicBool, AtomicUsize, Ordering::SeqCst};
use std::thread;
use std::time::Duration;

use lockreplay_record::{
    operation, switch, AtomicU8, Condvar, Ending, Error, Lock, Log, Mode, Mutex, Outcome, Run, Word,
};

const LIMIT: Duration = Duration::from_secs(60);
/// By then a thread with little to do has ended, even on a loaded machine.
const LONG: Duration = Duration::from_secs(10);

/// A thread alone has its first turn, one before each operation, and one at its end.
#[test]
fn each_operation_has_a_turn() -> Result<(), Error> {
    let by_priorities = Mode::Pct { seed: 1, depth: 2, steps: 9 };
    for (mode, due) in [(Mode::Seed(1), 5), (by_priorities, 5), (Mode::Ordered, 0)] {
        let word = AtomicU8::new(0).noted(Word::NextTicket);
        let run = Run::builder(Lock::Ticket, 1).mode(mode).open()?;
        assert_eq!(run.turns(), 0);
        run.threads(LIMIT, |_| (0..3).for_each(|n| assert_eq!(word.fetch_add(1, SeqCst), n)))?;
        assert_eq!(run.turns(), due);
    }
    Ok(())
}

/// A thread that panics in an operation, and catches that, gives its turn back.
#[test]
fn a_panic_ends_an_operation() -> Result<(), Error> {
    for mode in [Mode::Ordered, Mode::Seed(1), Mode::Free] {
        let word = AtomicU8::new(0).noted(Word::NextTicket);
        let run = Run::builder(Lock::Ticket, 2).bits(8).mode(mode).open()?;
        let ending = run.threads(LONG, |_| {
            let panics = || operation(|| panic!("a panic of this test"));
            assert!(catch_unwind(panics).is_err());
            (0..3).for_each(|_| assert!(word.fetch_add(1, SeqCst) < 6));
        })?;
        assert_eq!((ending, word.into_inner()), (Ending::Complete, 6));
    }
    Ok(())
}

/// A panic of a thread names it.
#[test]
fn each_thread_has_its_name() -> Result<(), Error> {
    let named = |log: &Log| {
        let due = format!("thread {}", log.thread());
        assert_eq!(thread::current().name(), Some(due.as_str()));
    };
    assert_eq!(Run::builder(Lock::Mcs, 3).open()?.threads(LIMIT, named)?, Ending::Complete);
    Ok(())
}

/// The turns of a run in which each operation after the first one is in vain.
fn turns_in_vain(run: &Run, operation: impl Fn() + Sync) -> Result<usize, Error> {
    let ending = run.threads(LIMIT, |_| loop {
        operation();
    })?;
    assert_eq!(ending, Ending::Hangs(vec![0]));
    Ok(run.turns())
}

/// A run hangs after 20,000 turns with nothing but polls, or 1,000 if all runs are explored. Beside
/// them it has its first turn, its last one, and those of two polls that are written, or would be
/// if there were room.
#[test]
fn patience_has_an_end() -> Result<(), Error> {
    let (word, state) = (AtomicU8::new(0), Mutex::new(()));
    let noted = AtomicU8::new(0).noted(Word::NowServing);
    let looks = || assert_eq!(word.load(SeqCst), 0);
    let reads = || assert_eq!(noted.load(SeqCst), 0);
    let waits = || state.lock().unwrap().note(Outcome::Waits);
    let operations: [(&(dyn Fn() + Sync), usize); 3] = [(&looks, 2), (&reads, 4), (&waits, 4)];
    for (operation, beside) in operations {
        for room in [0, 1, 9] {
            let run = Run::builder(Lock::RwSimple, 1).room(room).mode(Mode::Seed(1)).open()?;
            assert_eq!(turns_in_vain(&run, operation)?, 20_000 + beside);
        }
        let run = Run::builder(Lock::RwSimple, 1).explore(0).next().expect("there is one")?;
        assert_eq!(turns_in_vain(&run, operation)?, 1_000 + beside);
    }
    Ok(())
}

/// Who polled in vain still has a turn if all did. Thread 0 polls until thread 1 has polled four
/// times.
#[test]
fn all_poll_by_turns() -> Result<(), Error> {
    let setup = || Run::builder(Lock::Ticket, 2);
    let by_priorities = |seed| setup().mode(Mode::Pct { seed, depth: 1, steps: 9 }).open();
    for run in (0..9).map(by_priorities).chain(setup().explore(0)) {
        let words = [AtomicU8::new(0), AtomicU8::new(0)];
        let is_open = AtomicBool::new(false);
        let ending = run?.threads(LIMIT, |log| {
            let polls = || assert_eq!(words[log.thread()].load(SeqCst), 0);
            if log.thread() == 1 {
                (0..4).for_each(|_| polls());
                is_open.store(true, SeqCst);
            }
            while !is_open.load(SeqCst) {
                polls();
            }
        })?;
        assert_eq!(ending, Ending::Complete);
    }
    Ok(())
}

/// How many turns thread 0 waits, which nobody notifies. The flags are no atomics of the crate, so
/// a look at them takes no turn.
fn turns_until_a_wake(seed: u64, spurious: Option<usize>) -> Result<usize, Error> {
    let (state, changed) = (Mutex::new(()), Condvar::new());
    let (waits, is_awake) = (AtomicBool::new(false), AtomicBool::new(false));
    let turns = AtomicUsize::new(0);
    let setup = Run::builder(Lock::RwSimple, 2).mode(Mode::Seed(seed));
    let run = spurious.map_or(setup.clone(), |one_in| setup.spurious(one_in)).open()?;
    let ending = run.threads(LIMIT, |log| {
        if log.thread() == 0 {
            let held = state.lock().unwrap();
            waits.store(true, SeqCst);
            drop(changed.wait(held).unwrap());
            is_awake.store(true, SeqCst);
        }
        while !is_awake.load(SeqCst) {
            turns.fetch_add(usize::from(waits.load(SeqCst)), SeqCst);
            switch();
        }
    })?;
    assert_eq!(ending, Ending::Complete);
    Ok(turns.into_inner())
}

/// One turn in so many wakes a thread; by default one in 8 of an even seed. The bounds are six
/// standard deviations from the mean of 100 waits, and a thread that was woken may have to wait for
/// its turn.
#[test]
fn wakes_are_as_rare_as_they_are_said_to_be() -> Result<(), Error> {
    for (spurious, mean) in [(None, 8.0), (Some(8), 8.0), (Some(40), 40.0)] {
        let waits = (0..100).map(|it| turns_until_a_wake(2 * it, spurious));
        let sum: usize = waits.sum::<Result<usize, Error>>()?;
        let (found, bound) = (sum as f64 / 100.0, 6.0 * mean / 10.0);
        assert!((mean - bound..=mean + bound + 2.0).contains(&found), "{found} of {mean}");
    }
    Ok(())
}
