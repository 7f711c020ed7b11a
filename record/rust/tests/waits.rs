//! Sections that wait: those that are written, and those that repeat the one before them.
// SPDX-License-Identifier: Apache-2.0 OR MIT
#![cfg(feature = "check")]

use std::panic::catch_unwind;
use std::sync::Barrier;
use std::time::Duration;

use lockreplay_record::{
    call, explore, Call, Condvar, Ending, Error, Lock, Mode, Mutex, Outcome, Run,
};

const LIMIT: Duration = Duration::from_secs(60);

/// Thread 1 waits three times, and again twice after a move of thread 0: the moves of thread 1.
fn waits_of(run: &Run) -> Result<(), Error> {
    let (state, both) = (Mutex::new(()), Barrier::new(2));
    let waits = || state.lock().unwrap().note(Outcome::Waits);
    let ending = run.threads(LIMIT, |log| {
        if log.thread() == 1 {
            (0..3).for_each(|_| waits());
        }
        both.wait();
        if log.thread() == 0 {
            drop(call(Call::ReadLock));
        }
        both.wait();
        if log.thread() == 1 {
            (0..2).for_each(|_| waits());
            state.lock().unwrap().note(Outcome::Entered);
        }
    })?;
    assert_eq!(ending, Ending::Complete);
    Ok(())
}

/// The third and the fifth repeat what was found before them. Another thread moved before the
/// fourth, so the lock may be free by then.
#[test]
fn a_wait_after_a_move_of_another_thread_is_written() -> Result<(), Error> {
    let run = Run::builder(Lock::RwSimple, 2).mode(Mode::Ordered).open()?;
    waits_of(&run)?;
    let due = "\n1 section 1 waits\n1 section 2 waits\n0 rlock\n1 section 4 waits\n\
               1 section 6 entered\n";
    assert!(run.trace()?.ends_with(due), "{}", run.trace()?);
    Ok(())
}

/// Free threads do not know of each other's moves.
#[test]
fn free_threads_write_two_waits() -> Result<(), Error> {
    let run = Run::builder(Lock::RwSimple, 2).open()?;
    waits_of(&run)?;
    let logs = std::env::temp_dir().join(format!("lockreplay-waits-{}", std::process::id()));
    run.save(&logs)?;
    let log = std::fs::read_to_string(logs.join("thread-1.log")).expect("it was saved");
    std::fs::remove_dir_all(logs).expect("nobody uses it");
    let due = " thread 1\nsection 1 waits\nsection 2 waits\nsection 6 entered\ndropped 0\n";
    assert!(log.ends_with(due), "{log}");
    Ok(())
}

/// Thread 0 writes once, and the flag says whether it is inside. Thread 1 reads if it comes
/// meanwhile, and waits at its third look whatever it sees.
fn round(is_inside: &Mutex<bool>, thread: usize) {
    if thread == 0 {
        let sections = [(Call::WriteLock, Outcome::Entered), (Call::WriteUnlock, Outcome::Left)];
        for (made, outcome) in sections {
            let _call = call(made);
            let mut section = is_inside.lock().unwrap();
            *section = outcome == Outcome::Entered;
            section.note(outcome);
        }
    } else if *is_inside.lock().unwrap() {
        let _call = call(Call::ReadLock);
        let look = |number| {
            let mut section = is_inside.lock().unwrap();
            let waits = *section || number == 3;
            section.note(if waits { Outcome::Waits } else { Outcome::Entered });
            !waits
        };
        assert_ne!((1..).find(|&number| look(number)), Some(3));
    }
}

/// The third look of the reader is after the writer has left, so the published lock enters.
#[test]
fn a_wrong_third_wait_is_refused_in_one_of_all_runs() {
    let search = || explore(Run::builder(Lock::RwSimple, 2), 1, || Mutex::new(false), round);
    let said = catch_unwind(search).expect_err("it waits for nobody");
    let said = said.downcast_ref::<String>().expect("a text");
    assert!(said.contains(", '1 section 5 waits': OtherOutcome: "), "{said}");
}

/// A seed may let the reader look more often while the writer is inside, or not at all.
#[test]
fn a_wrong_third_wait_is_refused_by_seeds() -> Result<(), Error> {
    let by_priorities = |seed| Mode::Pct { seed, depth: 3, steps: 20 };
    let seeds = 1..200;
    let seeded = seeds.clone().map(Mode::Seed).collect::<Vec<_>>();
    for modes in [seeded, seeds.map(by_priorities).collect()] {
        let mut refused = 0;
        for mode in modes {
            let run = Run::builder(Lock::RwSimple, 2).mode(mode).spurious(0).open()?;
            let is_inside = Mutex::new(false);
            run.threads(LIMIT, |log| round(&is_inside, log.thread()))?;
            let fault = run.check().map_or_else(|error| error.to_string(), |()| String::new());
            refused += usize::from(fault.contains(" waits': OtherOutcome: "));
        }
        assert!(refused > 0);
    }
    Ok(())
}

/// Two threads that wake for nothing wait by turns, each after a move of the other one: that is no
/// progress.
#[test]
fn threads_that_only_wait_hang() -> Result<(), Error> {
    let (state, changed) = (Mutex::new(()), Condvar::new());
    let run = Run::builder(Lock::RwSimple, 2).mode(Mode::Seed(2)).spurious(2).open()?;
    let ending = run.threads(LIMIT, |_| {
        let mut section = state.lock().unwrap();
        loop {
            section.note(Outcome::Waits);
            section = changed.wait(section).unwrap();
        }
    })?;
    assert_eq!(ending, Ending::Hangs(vec![0, 1]));
    assert!(run.turns() < 30_000, "{}", run.turns());
    Ok(())
}
