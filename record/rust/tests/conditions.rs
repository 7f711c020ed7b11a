//! Conditions of a monitor: which threads a notification wakes, and what wakes them without one.
// SPDX-License-Identifier: Apache-2.0 OR MIT
#![cfg(feature = "record")]

use std::panic::{catch_unwind, AssertUnwindSafe};
use std::sync::atomic::{AtomicUsize, Ordering::SeqCst};
use std::sync::TryLockError;
use std::thread;
use std::time::Duration;

use lockreplay_record::{
    switch, AtomicBool, Condvar, Ending, Error, Lock, Mode, Mutex, Outcome, Run,
};

const LIMIT: Duration = Duration::from_secs(60);
/// By then a thread with nothing to do has ended, even on a loaded machine.
const LONG: Duration = Duration::from_secs(2);

/// How a run without progress ends: by turns it is known that it hangs, else its time is over.
fn cut_short(mode: &Mode, threads: Vec<usize>) -> Ending {
    match mode {
        Mode::Seed(_) => Ending::Hangs(threads),
        _ => Ending::Stopped(threads),
    }
}

/// A trace without its first line, which has the run's number.
fn after_number(trace: &str) -> &str {
    let (first, rest) = trace.split_once('\n').expect("it has lines");
    assert!(first.starts_with("# run "), "{first}");
    rest
}

/// Thread 0 waits, and thread 1 says nothing: in no mode is the wait over.
#[test]
fn a_missing_notification_is_seen() -> Result<(), Error> {
    for mode in [Mode::Seed(1), Mode::Seed(2), Mode::Free, Mode::Ordered] {
        let (open, changed) = (Mutex::new(false), Condvar::new());
        let limit = if matches!(mode, Mode::Seed(_)) { LIMIT } else { LONG };
        let run = Run::builder(Lock::RwSimple, 2).mode(mode.clone()).open()?;
        let is_asleep = AtomicBool::new(false);
        let ending = run.threads(limit, |log| {
            let mut state = open.lock().unwrap();
            if log.thread() == 0 {
                is_asleep.store(true, SeqCst);
                while !*state {
                    state = changed.wait(state).unwrap();
                }
            } else if is_asleep.peek(SeqCst) {
                *state = true;
            }
        })?;
        assert_eq!(ending, cut_short(&mode, vec![0]), "{mode:?}");
    }
    Ok(())
}

/// A mutex that is never given back is tried for ever.
#[test]
fn a_mutex_is_tried_in_vain() -> Result<(), Error> {
    let mutex = Mutex::new(());
    let run = Run::builder(Lock::RwSimple, 2).mode(Mode::Seed(1)).open()?;
    let ending = run.threads(LIMIT, |_| loop {
        if let Ok(held) = mutex.try_lock() {
            break std::mem::forget(held);
        }
    })?;
    assert!(matches!(&ending, Ending::Hangs(left) if left.len() == 1), "{ending:?}");
    Ok(())
}

/// A thread that only has sections which wait polls.
#[test]
fn sections_that_wait_are_no_progress() -> Result<(), Error> {
    let state = Mutex::new(());
    let run = Run::builder(Lock::RwSimple, 1).mode(Mode::Seed(1)).open()?;
    let ending = run.threads(LIMIT, |_| loop {
        state.lock().unwrap().note(Outcome::Waits);
    })?;
    assert_eq!(ending, Ending::Hangs(vec![0]));
    Ok(())
}

/// Takes the mutex once more when it is dropped, as a lock does that is given back.
struct TakesAgain<'a>(&'a Mutex<()>);

impl Drop for TakesAgain<'_> {
    fn drop(&mut self) {
        drop(self.0.lock().unwrap());
    }
}

/// Thread 0 polls in the monitor until it is stopped. Thread 1 then gets the mutex, and hears of no
/// panic; nor does a thread that unwinds.
#[test]
fn a_thread_that_is_stopped_poisons_nothing() -> Result<(), Error> {
    let (mutex, has_it) = (Mutex::new(()), AtomicBool::new(false));
    let run = Run::builder(Lock::RwSimple, 2).open()?;
    let ending = run.threads(LONG, |log| {
        while log.thread() == 1 && !has_it.load(SeqCst) {
            thread::yield_now();
        }
        let _again = (log.thread() == 0).then(|| TakesAgain(&mutex));
        let _held = mutex.lock().unwrap();
        has_it.store(true, SeqCst);
        while has_it.load(SeqCst) {
            thread::yield_now();
        }
    })?;
    assert_eq!(ending, Ending::Stopped(vec![0, 1]));
    Ok(())
}

/// A thread that panics in the monitor, and catches that, poisons it as one outside of a run does.
#[test]
fn a_panic_in_the_monitor_is_heard_of() -> Result<(), Error> {
    for mode in [Mode::Seed(1), Mode::Ordered, Mode::Free] {
        let mutex = Mutex::new(());
        let run = Run::builder(Lock::RwSimple, 1).mode(mode).open()?;
        let ending = run.threads(LIMIT, |_| {
            let panics = || {
                let _held = mutex.lock().unwrap();
                panic!("a panic of this test");
            };
            assert!(catch_unwind(AssertUnwindSafe(panics)).is_err());
            assert!(matches!(mutex.try_lock(), Err(TryLockError::Poisoned(_))));
            assert!(mutex.lock().is_err() && mutex.is_poisoned());
        })?;
        assert_eq!(ending, Ending::Complete);
    }
    Ok(())
}

/// Two wait, and one notification is for one of them; all are for both.
#[test]
fn one_or_all_are_woken() -> Result<(), Error> {
    for seed in 0..20 {
        for all in [false, true] {
            let (waiting, changed) = (Mutex::new(0), Condvar::new());
            let woken = AtomicUsize::new(0);
            let setup = Run::builder(Lock::RwSimple, 3).mode(Mode::Seed(seed)).spurious(0);
            setup.open()?.threads(LIMIT, |log| {
                if log.thread() < 2 {
                    let mut state = waiting.lock().unwrap();
                    *state += 1;
                    drop(changed.wait(state).unwrap());
                    woken.fetch_add(1, SeqCst);
                } else {
                    while *waiting.lock().unwrap() < 2 {}
                    if all {
                        changed.notify_all()
                    } else {
                        changed.notify_one()
                    }
                }
            })?;
            assert_eq!(woken.load(SeqCst), if all { 2 } else { 1 });
        }
    }
    Ok(())
}

/// Two real threads wait, and each notification is for one of them, however long the other waits.
#[test]
fn one_real_thread_is_woken() -> Result<(), Error> {
    for (notifications, limit, due) in [(1, LONG, 1), (2, LIMIT, 0)] {
        for mode in [Mode::Free, Mode::Ordered] {
            let (waiting, changed) = (Mutex::new(0), Condvar::new());
            let run = Run::builder(Lock::RwSimple, 3).mode(mode).open()?;
            let ending = run.threads(limit, |log| {
                if log.thread() < 2 {
                    let mut state = waiting.lock().unwrap();
                    *state += 1;
                    drop(changed.wait(state).unwrap());
                } else {
                    while *waiting.lock().unwrap() < 2 {}
                    (0..notifications).for_each(|_| changed.notify_one());
                }
            })?;
            let left = match ending {
                Ending::Complete => 0,
                Ending::Stopped(left) => left.len(),
                other => panic!("{other:?}"),
            };
            assert_eq!(left, due, "{notifications}");
        }
    }
    Ok(())
}

/// Thread 0 waits for one condition, and thread 1 notifies another one.
#[test]
fn a_notification_is_of_one_condition() -> Result<(), Error> {
    for all in [false, true] {
        let (waiting, changed, other) = (Mutex::new(false), Condvar::new(), Condvar::new());
        let run = Run::builder(Lock::RwSimple, 2).mode(Mode::Seed(1)).spurious(0).open()?;
        let ending = run.threads(LIMIT, |log| {
            if log.thread() == 0 {
                let mut state = waiting.lock().unwrap();
                *state = true;
                drop(changed.wait(state).unwrap());
            } else {
                while !*waiting.lock().unwrap() {}
                if all {
                    other.notify_all()
                } else {
                    other.notify_one()
                }
            }
        })?;
        assert_eq!(ending, Ending::Hangs(vec![0]));
    }
    Ok(())
}

/// Thread 0 waits once, and takes a wake for a change. Thread 1 comes later, by turns. Whether
/// thread 0 saw what it waited for, and the trace.
fn waits_once(seed: u64, spurious: usize) -> Result<(bool, String), Error> {
    let (open, changed, has_seen) = (Mutex::new(false), Condvar::new(), AtomicBool::new(true));
    let setup = Run::builder(Lock::RwSimple, 2).mode(Mode::Seed(seed)).spurious(spurious);
    let run = setup.open()?;
    let ending = run.threads(LIMIT, |log| {
        if log.thread() == 1 {
            (0..20).for_each(|_| switch());
            *open.lock().unwrap() = true;
            changed.notify_all();
            return;
        }
        let mut state = open.lock().unwrap();
        if !*state {
            state.note(Outcome::Waits);
            state = changed.wait(state).unwrap();
        }
        has_seen.store(*state, SeqCst);
    })?;
    assert_eq!(ending, Ending::Complete);
    Ok((has_seen.load(SeqCst), run.trace()?))
}

#[test]
fn a_wait_without_a_second_look_is_seen_by_a_wake_for_nothing() -> Result<(), Error> {
    let mut missed = 0;
    for seed in 0..20 {
        let (has_seen, trace) = waits_once(seed, 0)?;
        assert!(has_seen && trace.contains(&format!("# seed {seed}\n# spurious 0\nlock ")));
        let (has_seen, trace) = waits_once(seed, 2)?;
        assert_eq!(waits_once(seed, 2)?, (has_seen, trace.clone()));
        let header = format!("# seed {seed}\n# spurious 2\nlock rw-simple threads 2 bits 64\n");
        assert!(after_number(&trace).starts_with(&header), "{trace}");
        missed += usize::from(!has_seen);
    }
    assert!(missed > 0);
    Ok(())
}

/// A wait for a condition looks again after each wake for nothing.
#[test]
fn a_wait_lasts_as_long_as_its_condition() -> Result<(), Error> {
    for seed in 0..20 {
        let (open, changed) = (Mutex::new(false), Condvar::new());
        let run = Run::builder(Lock::RwSimple, 2).mode(Mode::Seed(seed)).spurious(2).open()?;
        let ending = run.threads(LIMIT, |log| {
            if log.thread() == 1 {
                (0..20).for_each(|_| switch());
                *open.lock().unwrap() = true;
                changed.notify_all();
            } else {
                assert!(*changed.wait_while(open.lock().unwrap(), |open| !*open).unwrap());
            }
        })?;
        assert_eq!(ending, Ending::Complete);
    }
    Ok(())
}

/// With enough spurious wakeups nobody has to notify. Without them the run hangs.
#[test]
fn a_wake_for_nothing_takes_the_place_of_a_notification() -> Result<(), Error> {
    for (spurious, due) in [(0, Ending::Hangs(vec![0, 1])), (1, Ending::Complete)] {
        let (state, changed) = (Mutex::new(()), Condvar::new());
        let setup = Run::builder(Lock::RwSimple, 2).mode(Mode::Seed(1)).spurious(spurious);
        let waits = |_: &_| drop(changed.wait(state.lock().unwrap()).unwrap());
        let ending = setup.open()?.threads(LIMIT, waits)?;
        assert_eq!(ending, due);
    }
    Ok(())
}

/// By default one turn in 8 has them, so few turns pass until one comes. Thread 1 lets others
/// go first once thread 0 waits.
#[test]
fn even_seeds_have_wakes_for_nothing() -> Result<(), Error> {
    let by_priorities = |seed| Mode::Pct { seed, depth: 2, steps: 100 };
    for (seed, mode) in (0..20).flat_map(|it| [(it, Mode::Seed(it)), (it, by_priorities(it))]) {
        let (state, changed) = (Mutex::new(()), Condvar::new());
        let has_come = AtomicBool::new(false);
        let run = Run::builder(Lock::RwSimple, 2).mode(mode).open()?;
        let ending = run.threads(LIMIT, |log| {
            if log.thread() == 0 {
                let state = state.lock().unwrap();
                has_come.store(true, SeqCst);
                drop(changed.wait(state).unwrap());
            } else {
                while !has_come.load(SeqCst) {}
                drop(state.lock().unwrap());
                (0..200).for_each(|_| switch());
            }
        })?;
        let hangs = ending != Ending::Complete;
        assert_eq!(hangs, seed % 2 == 1, "{seed}");
    }
    Ok(())
}

#[test]
fn wakes_for_nothing_need_a_seed() -> Result<(), Error> {
    let opened = |mode| Run::builder(Lock::RwSimple, 2).mode(mode).spurious(9).open();
    assert!(opened(Mode::Pct { seed: 1, depth: 2, steps: 9 }).is_ok());
    for mode in [Mode::Free, Mode::Noise(1), Mode::Ordered] {
        let said = opened(mode).expect_err("it has no seed").to_string();
        assert_eq!(said, "wakes for nothing are drawn by the seed of a mode");
    }
    Ok(())
}
