//! Runs that are explored: which there are, in which order, and where they end.
// SPDX-License-Identifier: Apache-2.0 OR MIT
#![cfg(feature = "record")]

use std::sync::atomic::{AtomicUsize, Ordering::SeqCst};
use std::time::Duration;

use lockreplay_record::{
    note, operation, own_record, AtomicBool, AtomicPtr, AtomicU8, Condvar, Ending, Error, Lock,
    Mode, Mutex, Run, RunBuilder, Step, Word,
};

const LIMIT: Duration = Duration::from_secs(60);

/// Whose turns the runs of two threads are that add twice each, and how many preemptions they have.
fn runs_of_two_additions(preemptions: usize) -> Result<Vec<(usize, String)>, Error> {
    let mut explored = Run::builder(Lock::Ticket, 2).explore(preemptions);
    let mut found = Vec::new();
    while let Some(run) = explored.next() {
        let (run, word) = (run?, AtomicU8::new(0).noted(Word::NextTicket));
        let ending = run.threads(LIMIT, |_| {
            word.fetch_add(1, SeqCst);
            word.fetch_add(1, SeqCst);
        })?;
        assert_eq!(ending, Ending::Complete);
        let turns = run.trace()?.lines().skip(2).map(|line| &line[..1]).collect();
        found.push((explored.preemptions(), turns));
    }
    Ok(found)
}

/// Of the six interleavings two switch at a thread's end alone, two once more, and two at each
/// step.
#[test]
fn each_run_comes_once_and_those_with_fewer_preemptions_first() -> Result<(), Error> {
    let by_preemptions = [["0011", "1100"], ["0110", "1001"], ["0101", "1010"]];
    for most in [0, 1, 2, 9] {
        let found = runs_of_two_additions(most)?;
        assert!(found.windows(2).all(|two| two[0].0 <= two[1].0), "{found:?}");
        for (preemptions, due) in by_preemptions.iter().enumerate() {
            let here = found.iter().filter(|(count, _)| *count == preemptions);
            let mut turns: Vec<&str> = here.map(|(_, turns)| turns.as_str()).collect();
            turns.sort_unstable();
            assert_eq!(turns, if preemptions <= most { due.to_vec() } else { Vec::new() });
        }
        assert_eq!(found.len(), 2 * (most + 1).min(3));
    }
    Ok(())
}

/// Those of a thread that found the same twice in a row.
#[test]
fn polls_that_are_left_out() {
    for (waits, reduces) in [(false, true), (false, false), (true, true), (true, false)] {
        let mut explored = Run::builder(Lock::Ticket, 2).reduced(reduces).explore(0);
        for run in explored.by_ref() {
            let word = AtomicU8::new(0).noted(Word::NowServing);
            let ending = run.unwrap().threads(LIMIT, |log| match log.thread() {
                0 => word.store(1, SeqCst),
                _ => while word.load(SeqCst) == 0 && waits {},
            });
            assert_eq!(ending.unwrap(), Ending::Complete);
        }
        assert_eq!(explored.leaves_out_polls(), waits, "reduces: {reduces}");
    }
}

/// The orders in which two threads can make two steps each: whose each move is.
const ALL: [&str; 6] = ["0011", "0101", "0110", "1001", "1010", "1100"];

/// Those in which they make these steps.
fn orders(setup: RunBuilder, work: impl Fn(&[AtomicU8; 2], usize) + Sync) -> Vec<String> {
    let mut found = Vec::new();
    for run in setup.explore(9) {
        let (run, atomics) = (run.unwrap(), [AtomicU8::new(0), AtomicU8::new(0)]);
        let twice = |thread| (0..2).for_each(|_| work(&atomics, thread));
        assert_eq!(run.threads(LIMIT, |log| twice(log.thread())).unwrap(), Ending::Complete);
        let trace = run.trace().unwrap();
        found.push(trace.lines().skip(2).map(|line| &line[..1]).collect());
    }
    found.sort_unstable();
    found
}

/// Steps of two threads are made in each order if they are on one atomic or note one word, and one
/// of them may change it. Else one order is enough, unless all are asked for.
#[test]
fn steps_that_are_made_in_each_order() {
    let (next, own) = (Step::write(Word::Next, 0), Step::write(Word::Locked, 0));
    let rows = [
        ([next, next], [0, 1], true, false),
        ([next, next.of(0)], [0, 1], true, true),
        ([next.of(1), next.of(0)], [0, 1], true, false),
        ([next.of(1), next], [0, 1], true, true),
        ([next, own.of(0)], [0, 1], true, false),
        ([Step::swap(Word::Tail, 0), Step::cas(Word::Tail, true)], [0, 1], true, true),
        ([Step::read(Word::Tail, 0), Step::cas(Word::Tail, true)], [0, 1], false, true),
        ([Step::read(Word::Tail, 0), Step::read(Word::Tail, 0)], [0, 1], false, false),
        ([Step::read(Word::Tail, 0), Step::read(Word::Tail, 0)], [0, 0], false, false),
        ([Step::read(Word::Tail, 0), Step::read(Word::Tail, 0)], [0, 0], true, true),
        ([next, next], [1, 1], true, true),
        ([next, next], [1, 1], false, true),
    ];
    for (steps, on, changes, are_all) in rows {
        for reduces in [true, false] {
            let setup = Run::builder(Lock::Mcs, 2).reduced(reduces);
            let found = orders(setup, |atomics, thread| {
                operation(|| {
                    let atomic = &atomics[on[thread]];
                    if changes {
                        atomic.fetch_add(1, SeqCst);
                    } else {
                        atomic.load(SeqCst);
                    }
                    note(steps[thread]);
                });
            });
            let due = if are_all || !reduces { &ALL[..] } else { &["0011", "1100"] };
            assert_eq!(found, due, "{steps:?} on {on:?}");
        }
    }
}

/// Each operation but a load may change its atomic, also where it is not noted.
#[test]
fn each_operation_may_change_its_atomic() {
    type Operation = fn(&AtomicU8) -> u8;
    let rows: [(Operation, bool); 13] = [
        (|it| it.load(SeqCst), false),
        (|it| it.peek(SeqCst), false),
        (|it| it.swap(1, SeqCst), true),
        (|it| it.compare_exchange(0, 1, SeqCst, SeqCst).unwrap_or(1), true),
        (|it| it.compare_exchange_weak(0, 1, SeqCst, SeqCst).unwrap_or(1), true),
        (|it| it.fetch_add(1, SeqCst), true),
        (|it| it.fetch_sub(1, SeqCst), true),
        (|it| it.fetch_and(1, SeqCst), true),
        (|it| it.fetch_nand(1, SeqCst), true),
        (|it| it.fetch_or(1, SeqCst), true),
        (|it| it.fetch_xor(1, SeqCst), true),
        (|it| it.fetch_max(1, SeqCst), true),
        (|it| (it.store(1, SeqCst), 1).1, true),
    ];
    for (at, (make, changes)) in rows.into_iter().enumerate() {
        let found = orders(Run::builder(Lock::Mcs, 2), |[atomic, _], _| {
            operation(|| {
                make(atomic);
                note(Step::read(Word::Tail, 0));
            });
        });
        assert_eq!(found, if changes { &ALL[..] } else { &["0011", "1100"] }, "row {at}");
    }
}

/// A step without an atomic may touch anything.
#[test]
fn notes_alone_are_made_in_each_order() {
    let words = [Word::NextTicket, Word::NowServing];
    let note_alone = |_: &_, thread: usize| operation(|| note(Step::write(words[thread], 0)));
    let found = orders(Run::builder(Lock::Ticket, 2), note_alone);
    assert_eq!(found, ALL);
}

/// Thread 0 sets a flag for a moment. Thread 1 looks at it without a step of its own.
#[test]
fn a_peek_is_seen() -> Result<(), Error> {
    let mut seen = Vec::new();
    for run in Run::builder(Lock::Ticket, 2).explore(1) {
        let (flag, other) = (AtomicBool::new(false), AtomicBool::new(false));
        let is_seen = AtomicUsize::new(0);
        run?.threads(LIMIT, |log| {
            if log.thread() == 0 {
                flag.store(true, SeqCst);
                flag.store(false, SeqCst);
            } else {
                other.load(SeqCst);
                is_seen.fetch_add(usize::from(flag.peek(SeqCst)), SeqCst);
            }
        })?;
        seen.push(is_seen.into_inner());
    }
    assert!(seen.contains(&1), "{seen:?}");
    Ok(())
}

/// Thread 0 has another record after its step. Thread 1 notes a pointer to the first one, which is
/// nobody's before and afterwards.
#[test]
fn a_record_that_changes_is_seen() -> Result<(), Error> {
    let records = [0_u8, 1];
    let mut found = Vec::new();
    for run in Run::builder(Lock::Mcs, 2).explore(1) {
        let (run, other) = (run?, AtomicU8::new(0));
        let tail = AtomicPtr::new(std::ptr::null_mut()).noted(Word::Tail);
        run.threads(LIMIT, |log| {
            if log.thread() == 0 {
                for record in &records {
                    other.load(SeqCst);
                    own_record(record);
                }
            } else {
                tail.store(&records[0] as *const u8 as *mut u8, SeqCst);
            }
        })?;
        found.push(run.trace()?.lines().last().unwrap_or("").to_owned());
    }
    found.sort_unstable();
    found.dedup();
    assert_eq!(found, ["1 write tail left 1", "1 write tail left 256"]);
    Ok(())
}

/// A thread that waits is passed over until the other one has done what it waits for, so each run
/// ends. If nobody does it, no run does.
#[test]
fn a_poll_in_vain_is_passed_over() -> Result<(), Error> {
    for opens in [true, false] {
        let (mut runs, mut complete) = (0, 0);
        for run in Run::builder(Lock::Ticket, 2).explore(2) {
            let open = AtomicBool::new(false);
            let ending = run?.threads(LIMIT, |log| match log.thread() {
                0 => while !open.load(SeqCst) {},
                _ => open.store(opens, SeqCst),
            })?;
            runs += 1;
            complete += usize::from(ending == Ending::Complete);
        }
        // before the store thread 0 looks not at all, once, or twice and is stuck
        assert!(runs >= 3, "{runs}");
        assert_eq!(complete, if opens { runs } else { 0 });
    }
    Ok(())
}

/// Thread 0 looks until thread 1 has opened. Whether it looked twice in vain, and nevertheless adds
/// before thread 1 does.
fn is_freed(run: &Run) -> Result<bool, Error> {
    let (looks, open) = (AtomicUsize::new(0), AtomicBool::new(false));
    let word = AtomicU8::new(0).noted(Word::NextTicket);
    let ending = run.threads(LIMIT, |log| {
        if log.thread() == 0 {
            while !open.load(SeqCst) {
                looks.fetch_add(1, SeqCst);
            }
        } else {
            open.store(true, SeqCst);
        }
        word.fetch_add(1, SeqCst);
    })?;
    assert_eq!(ending, Ending::Complete);
    Ok(looks.into_inner() == 2 && run.trace()?.contains("\n0 add next_ticket found 0"))
}

/// Who has looked twice in vain gets on as soon as the other one has made a step. The first look
/// after it is not in vain.
#[test]
fn a_step_frees_those_who_polled_in_vain() -> Result<(), Error> {
    for reduces in [true, false] {
        let runs = Run::builder(Lock::Ticket, 2).reduced(reduces).explore(1);
        let freed = runs.map(|run| is_freed(&run?)).collect::<Result<Vec<bool>, Error>>()?;
        assert!(freed.contains(&true), "{reduces}");
    }
    let by_priorities = |seed| -> Result<bool, Error> {
        let mode = Mode::Pct { seed, depth: 1, steps: 9 };
        is_freed(&Run::builder(Lock::Ticket, 2).mode(mode).open()?)
    };
    let freed = (0..20).map(by_priorities).collect::<Result<Vec<bool>, Error>>()?;
    assert!(freed.contains(&true) && freed.contains(&false));
    Ok(())
}

/// A look at one word and then at another is no poll in vain, nor are two looks with a step between
/// them: without a preemption thread 0 makes all of its additions before thread 1's, or after it.
#[test]
fn looks_that_are_not_in_vain() -> Result<(), Error> {
    type Work = fn(&AtomicBool, &AtomicBool, &AtomicU8);
    let rows: [(Work, [&str; 2]); 2] = [
        (
            |one, other, _| {
                one.load(SeqCst);
                other.load(SeqCst);
            },
            ["01", "10"],
        ),
        (
            |one, _, word| {
                one.load(SeqCst);
                word.fetch_add(1, SeqCst);
                one.load(SeqCst);
            },
            ["001", "100"],
        ),
    ];
    for (work, due) in rows {
        let mut orders = Vec::new();
        for run in Run::builder(Lock::Ticket, 2).explore(0) {
            let (run, [one, other]) = (run?, [AtomicBool::new(false), AtomicBool::new(false)]);
            let word = AtomicU8::new(0).noted(Word::NextTicket);
            run.threads(LIMIT, |log| {
                if log.thread() == 0 {
                    work(&one, &other, &word);
                }
                word.fetch_add(1, SeqCst);
            })?;
            orders.push(run.trace()?.lines().skip(2).map(|line| &line[..1]).collect::<String>());
        }
        orders.sort_unstable();
        assert_eq!(orders, due);
    }
    Ok(())
}

/// Two wait for a notification, and each of them is woken in some run.
#[test]
fn who_is_woken_is_explored() -> Result<(), Error> {
    let woken = [AtomicUsize::new(0), AtomicUsize::new(0)];
    for run in Run::builder(Lock::RwSimple, 3).explore(0) {
        let (waiting, changed) = (Mutex::new(0), Condvar::new());
        let ending = run?.threads(LIMIT, |log| {
            if let Some(own) = woken.get(log.thread()) {
                let mut state = waiting.lock().unwrap();
                *state += 1;
                drop(changed.wait(state).unwrap());
                own.fetch_add(1, SeqCst);
            } else if *waiting.lock().unwrap() == 2 {
                changed.notify_one();
            }
        })?;
        assert_ne!(ending, Ending::Complete); // one of them waits for ever
    }
    let [first, second] = woken.map(AtomicUsize::into_inner);
    assert!(first > 0 && first == second, "{first} {second}");
    Ok(())
}

/// Thread 0 waits once, and takes a wake for a change. Whether it missed the change in some run.
fn misses(setup: RunBuilder, preemptions: usize) -> Result<bool, Error> {
    let is_missed = AtomicUsize::new(0);
    for run in setup.explore(preemptions) {
        let (open, changed) = (Mutex::new(false), Condvar::new());
        let ending = run?.threads(LIMIT, |log| {
            let mut state = open.lock().unwrap();
            if log.thread() == 1 {
                *state = true;
                changed.notify_all();
            } else if !*state {
                state = changed.wait(state).unwrap();
                is_missed.fetch_add(usize::from(!*state), SeqCst);
            }
        })?;
        assert_eq!(ending, Ending::Complete);
    }
    Ok(is_missed.into_inner() > 0)
}

/// A spurious wakeup counts as a preemption.
#[test]
fn wakes_for_nothing_are_explored() -> Result<(), Error> {
    let setup = || Run::builder(Lock::RwSimple, 2);
    assert!(!misses(setup(), 0)? && misses(setup(), 1)?);
    assert!(!misses(setup().spurious(0), 2)? && misses(setup().spurious(9), 1)?);
    Ok(())
}

/// In the first run each thread makes three stores, and then thread 0 none and the others six. Of
/// two threads a choice that is due does not come up, of three it is not possible.
#[test]
fn a_driver_that_changes_is_noticed() -> Result<(), Error> {
    for threads in [2, 3] {
        let mut runs = 0;
        let mut explored = Run::builder(Lock::Ticket, threads).explore(1);
        let said = loop {
            match explored.next().expect("it is noticed before the end") {
                Err(error) => break error.to_string(),
                Ok(run) => {
                    let word = AtomicU8::new(0);
                    let stores = if runs == 0 { [3; 3] } else { [0, 6, 6] };
                    let made =
                        |thread: usize| (0..stores[thread]).for_each(|_| word.store(1, SeqCst));
                    run.threads(LIMIT, |log| made(log.thread()))?;
                    runs += 1;
                }
            }
        };
        assert_eq!(said, "the driver does not do the same after the same turns");
        assert!(explored.next().is_none());
    }
    Ok(())
}

/// Runs are counted, and name no seed.
#[test]
fn the_trace_has_the_number_of_the_run() -> Result<(), Error> {
    let mut explored = Run::builder(Lock::Mcs, 2).explore(0);
    for number in ["0000000000000001", "0000000000000002"] {
        let run = explored.next().expect("each thread may be first")?;
        run.threads(LIMIT, |_| ())?;
        assert_eq!(run.trace()?, format!("# run {number}\nlock mcs threads 2 bits 64\n"));
    }
    Ok(())
}
