//! What each mode does: seeds, noise, runs that hang, and threads that were started
//! elsewhere.
// SPDX-License-Identifier: Apache-2.0 OR MIT
#![cfg(feature = "record")]

mod ticket;

use std::env;
use std::process::Command;
use std::sync::atomic::Ordering::SeqCst;
use std::sync::mpsc;
use std::thread;
use std::time::{Duration, Instant};

use lockreplay_record::{
    operation, switch, AtomicBool, AtomicU8, Call, Ending, Error, Lock, Log, Mode, Run, Word,
};
use ticket::TicketLock;

const LIMIT: Duration = Duration::from_secs(60);
/// By then a thread with nothing to do has ended, even on a loaded machine.
const LONG: Duration = Duration::from_secs(2);

/// How a run without progress ends: by turns it is known that it hangs, else its time is over.
fn cut_short(mode: &Mode, threads: Vec<usize>) -> Ending {
    match mode {
        Mode::Seed(_) => Ending::Hangs(threads),
        _ => Ending::Stopped(threads),
    }
}

fn round(lock: &TicketLock) {
    lock.make(Call::Acquire);
    lock.make(Call::Release);
}

fn trace_of(mode: Mode) -> Result<String, Error> {
    let lock = TicketLock::new();
    let run = Run::builder(Lock::Ticket, 3).bits(8).mode(mode).open()?;
    assert_eq!(run.threads(LIMIT, |_| (0..20).for_each(|_| round(&lock)))?, Ending::Complete);
    run.trace()
}

/// A trace without its first line, which has the run's number.
fn after_number(trace: &str) -> &str {
    let (first, rest) = trace.split_once('\n').expect("it has lines");
    assert!(first.starts_with("# run "), "{first}");
    rest
}

/// A run that a seed or a schedule decides has a number of that. Others have the time's.
#[test]
fn the_number_is_that_of_the_run() -> Result<(), Error> {
    let number = |mode: Mode| -> Result<String, Error> {
        let run = Run::builder(Lock::Ticket, 2).bits(8).mode(mode).open()?;
        Ok(run.trace()?.lines().next().unwrap_or("").to_owned())
    };
    // the first number of splitmix64 by the seed 0, as its authors give it
    assert_eq!(number(Mode::Seed(0))?, "# run e220a8397b1dcdaf");
    assert_eq!(number(Mode::Seed(5))?, number(Mode::Seed(5))?);
    assert_ne!(number(Mode::Seed(5))?, number(Mode::Seed(6))?);
    let follow = |moves: &str| -> Result<String, Error> {
        number(Mode::Follow(format!("lock ticket threads 2\n{moves}").parse()?))
    };
    assert_eq!(follow("0 acquire\n")?, follow("# once\n0 acquire\n")?);
    let others = ["1 acquire\n", "0 release\n", "0 acquire\n0 add\n", ""];
    for other in others {
        assert_ne!(follow("0 acquire\n")?, follow(other)?);
    }
    for mode in [Mode::Free, Mode::Noise(1), Mode::Ordered] {
        assert_ne!(number(mode.clone())?, number(mode)?);
    }
    Ok(())
}

#[test]
fn the_same_seed_gives_the_same_run_and_others_give_others() -> Result<(), Error> {
    let moves = |seed| -> Result<String, Error> {
        Ok(trace_of(Mode::Seed(seed))?.lines().skip(3).collect())
    };
    let mut runs = (0..8).map(moves).collect::<Result<Vec<String>, Error>>()?;
    assert_eq!(runs[5], moves(5)?);
    runs.sort_unstable();
    runs.dedup();
    assert_eq!(runs.len(), 8);
    Ok(())
}

/// Additions of two threads that lose one of them if a thread is held up in its own: one change of
/// priority is enough, so a run of k turns loses one with a probability of at least 1 / 2k.
#[test]
fn few_changes_of_priority_are_enough() -> Result<(), Error> {
    let runs = 400;
    let lost = |depth, steps| -> Result<(usize, usize), Error> {
        let (mut lost, mut turns) = (0, 0);
        for seed in 0..runs {
            let count = AtomicU8::new(0);
            let mode = Mode::Pct { seed, depth, steps };
            let run = Run::builder(Lock::Ticket, 2).bits(8).room(0).mode(mode).open()?;
            let ending = run.threads(LIMIT, |_| count.store(count.load(SeqCst) + 1, SeqCst))?;
            assert_eq!(ending, Ending::Complete);
            lost += usize::from(count.load(SeqCst) == 1);
            turns = turns.max(run.turns());
        }
        Ok((lost, turns))
    };
    let (lost_of_one, turns) = lost(1, 12)?;
    assert_eq!(lost_of_one, 0);
    let (lost_of_two, _) = lost(2, turns)?;
    assert!(lost_of_two * 2 * turns >= 400, "{lost_of_two} of {turns} turns");
    Ok(())
}

/// Without a change the thread goes first that has the greatest priority, and each has it by some
/// seed. A change comes at one of the first `steps` turns. The first turn has nobody to interrupt,
/// the second one comes before the first step, and the third one between a thread's two steps.
#[test]
fn priorities_are_drawn() -> Result<(), Error> {
    let rows: [(usize, usize, usize, &[&str]); 4] = [
        (3, 1, 12, &["001122", "002211", "110022", "112200", "220011", "221100"]),
        (2, 2, 2, &["0011", "1100"]),
        (2, 2, 3, &["0011", "0110", "1001", "1100"]),
        (2, 3, 5, &["0011", "0101", "0110", "1001", "1010", "1100"]),
    ];
    for (threads, depth, steps, due) in rows {
        let orders = (0..200).map(|seed| -> Result<String, Error> {
            let word = AtomicU8::new(0).noted(Word::NextTicket);
            let mode = Mode::Pct { seed, depth, steps };
            let run = Run::builder(Lock::Ticket, threads).bits(8).room(2).mode(mode).open()?;
            run.threads(LIMIT, |_| {
                word.fetch_add(1, SeqCst);
                word.fetch_add(1, SeqCst);
            })?;
            Ok(run.trace()?.lines().skip(3).map(|line| &line[..1]).collect())
        });
        let mut orders = orders.collect::<Result<Vec<String>, Error>>()?;
        orders.sort_unstable();
        orders.dedup();
        assert_eq!(orders, due);
    }
    Ok(())
}

/// The thread with the greatest priority polls, and is passed over until it can go on.
#[test]
fn a_poll_in_vain_has_no_priority() -> Result<(), Error> {
    let mode = |seed| Mode::Pct { seed, depth: 3, steps: 100 };
    for seed in 0..20 {
        assert_eq!(trace_of(mode(seed))?, trace_of(mode(seed))?);
    }
    let header = "# seed 5 depth 3 steps 100\nlock ticket threads 3 bits 8\n";
    assert!(after_number(&trace_of(mode(5))?).starts_with(header));
    Ok(())
}

#[test]
fn the_order_is_that_of_the_operations() -> Result<(), Error> {
    for mode in [Mode::Ordered, Mode::Seed(3), Mode::Pct { seed: 3, depth: 5, steps: 900 }] {
        let trace = trace_of(mode)?;
        let tickets: Vec<&str> =
            trace.lines().filter_map(|line| line.split(" add next_ticket found ").nth(1)).collect();
        let due: Vec<String> = (0..60).map(|n| format!("{n} left {}", n + 1)).collect();
        assert_eq!(tickets, due);
    }
    Ok(())
}

#[test]
fn free_threads_have_no_trace() -> Result<(), Error> {
    let header = "lock ticket threads 3 bits 8\n";
    assert_eq!(after_number(&trace_of(Mode::Free)?), header);
    assert_eq!(after_number(&trace_of(Mode::Noise(4))?), format!("# noise 4\n{header}"));
    Ok(())
}

#[test]
fn atomics_without_a_name_are_switched_too() -> Result<(), Error> {
    let lost = |seed| -> Result<bool, Error> {
        let count = AtomicU8::new(0);
        let run = Run::builder(Lock::Ticket, 2).bits(8).mode(Mode::Seed(seed)).open()?;
        run.threads(LIMIT, |_| count.store(count.load(SeqCst) + 1, SeqCst))?;
        Ok(count.load(SeqCst) == 1)
    };
    let runs = (0..20).map(lost).collect::<Result<Vec<bool>, Error>>()?;
    assert!(runs.contains(&true) && runs.contains(&false), "{runs:?}");
    Ok(())
}

/// Threads that look, and each time let others go first, do not hang, however long it takes.
#[test]
fn a_switch_is_progress() -> Result<(), Error> {
    let modes = || [Mode::Seed(1), Mode::Pct { seed: 1, depth: 3, steps: 100 }];
    for (threads, mode) in modes().map(|it| (1, it)).into_iter().chain(modes().map(|it| (2, it))) {
        let run = Run::builder(Lock::Ticket, threads).mode(mode).open()?;
        let word = AtomicU8::new(0);
        let ending = run.threads(LIMIT, |_| {
            (0..25_000).for_each(|_| {
                word.load(SeqCst);
                switch();
            });
        })?;
        assert_eq!(ending, Ending::Complete);
    }
    Ok(())
}

#[test]
fn nobody_comes_between_the_parts_of_an_operation() -> Result<(), Error> {
    for mode in (0..20).map(Mode::Seed).chain([Mode::Ordered]) {
        let count = AtomicU8::new(0);
        let run = Run::builder(Lock::Ticket, 2).bits(8).mode(mode).open()?;
        run.threads(LIMIT, |_| {
            (0..10).for_each(|_| {
                operation(|| {
                    let found = count.peek(SeqCst);
                    switch();
                    count.store(found + 1, SeqCst);
                });
            });
        })?;
        assert_eq!(count.load(SeqCst), 20);
    }
    Ok(())
}

/// Between the two another thread can come, so a note of them as one would be wrong.
#[test]
#[should_panic(expected = "two operations on atomics in one `operation`")]
fn two_operations_are_not_one() {
    let count = AtomicU8::new(0);
    let run = Run::builder(Lock::Ticket, 1).mode(Mode::Seed(1)).open().unwrap();
    let twice = |_: &_| operation(|| count.store(count.load(SeqCst) + 1, SeqCst));
    run.threads(LIMIT, twice).unwrap();
}

/// A run that only takes its time was stopped, and does not hang.
#[test]
fn a_slow_run_does_not_hang() -> Result<(), Error> {
    let (lock, is_late) = (TicketLock::new(), AtomicBool::new(false));
    let run = Run::builder(Lock::Ticket, 2).bits(8).mode(Mode::Seed(1)).open()?;
    let ending = run.threads(Duration::from_millis(100), |_| {
        while !is_late.peek(SeqCst) {
            round(&lock);
        }
    })?;
    assert_eq!(ending, Ending::Stopped(vec![0, 1]));
    Ok(())
}

/// The environment variable that tells this program what to do in a process of its own.
const ALONE: &str = "LOCKREPLAY_RECORD_TEST";

/// If the time is over, a message names the thread that blocks in its turn, and none if the run is
/// only slow.
#[test]
fn a_thread_that_blocks_is_named() -> Result<(), Error> {
    if let Ok(how) = env::var(ALONE) {
        let word = AtomicU8::new(0);
        let lock = if how == "blocks in a queue" { Lock::Mcs } else { Lock::RwFifo };
        let run = Run::builder(lock, 2).mode(Mode::Seed(1)).open()?;
        run.threads(Duration::from_millis(100), |log| {
            if how != "is slow" && log.thread() == 1 {
                thread::sleep(Duration::from_secs(3));
            }
            loop {
                word.fetch_add(1, SeqCst);
            }
        })?;
        return Ok(());
    }
    let due = |more| {
        let said = "thread 1 has its turn and does not give it back: it blocks";
        let end = "or it polls without this crate's atomics";
        format!("lockreplay_record: {said}{more}, {end}\n")
    };
    let of_a_monitor = due(" (its Mutex and Condvar have to be this crate's)");
    let rows = [("blocks", of_a_monitor), ("blocks in a queue", due("")), ("is slow", "".into())];
    for (how, due) in rows {
        let mut own = Command::new(env::current_exe().expect("it has a path"));
        let own = own.args(["--exact", "a_thread_that_blocks_is_named", "--nocapture"]);
        let done = own.env(ALONE, how).output().expect("it was started");
        assert!(done.status.success(), "{done:?}");
        assert_eq!(String::from_utf8_lossy(&done.stderr), due, "{how}");
    }
    Ok(())
}

/// The second thread tries for ever, by an operation that changes nothing.
#[test]
fn a_try_in_vain_is_no_progress() -> Result<(), Error> {
    let tries: [fn(&AtomicBool) -> bool; 3] = [
        |taken| taken.swap(true, SeqCst),
        |taken| taken.fetch_or(true, SeqCst),
        |taken| taken.compare_exchange(false, true, SeqCst, SeqCst).is_err(),
    ];
    for is_vain in tries {
        let taken = AtomicBool::new(false);
        let run = Run::builder(Lock::Mcs, 2).mode(Mode::Seed(1)).open()?;
        let ending = run.threads(LIMIT, |_| while is_vain(&taken) {})?;
        assert!(matches!(&ending, Ending::Hangs(left) if left.len() == 1), "{ending:?}");
    }
    Ok(())
}

/// By turns no time ends the run, however slow the machine is. Else it ends soon after its time.
#[test]
fn threads_that_poll_for_ever_are_stopped() -> Result<(), Error> {
    for mode in [Mode::Seed(1), Mode::Free, Mode::Noise(1), Mode::Ordered] {
        let (open, begun) = (AtomicBool::new(false), Instant::now());
        let limit = if mode == Mode::Seed(1) { LIMIT * 9 } else { LONG };
        let run = Run::builder(Lock::Mcs, 3).mode(mode.clone()).open()?;
        let ending = run.threads(limit, |log| {
            while log.thread() != 1 && !open.load(SeqCst) {
                thread::yield_now();
            }
        })?;
        assert_eq!(ending, cut_short(&mode, vec![0, 2]), "{mode:?}");
        assert!(begun.elapsed() < limit + LIMIT);
    }
    Ok(())
}

/// Thread 0 is in an operation when the time is over. Those that wait for its end are stopped too.
#[test]
fn who_waits_for_an_operation_is_stopped() -> Result<(), Error> {
    let run = Run::builder(Lock::Ticket, 4).mode(Mode::Ordered).open()?;
    let (tell, told) = mpsc::channel();
    let work = |log: &Log| {
        operation(|| thread::sleep(if log.thread() == 0 { 2 * LONG } else { LONG / 100 }));
        let word = AtomicU8::new(0);
        loop {
            word.fetch_add(1, SeqCst);
        }
    };
    thread::spawn(move || tell.send(run.threads(LONG, work)));
    let ending = told.recv_timeout(LIMIT).expect("nobody waits for ever")?;
    assert_eq!(ending, Ending::Stopped(vec![0, 1, 2, 3]));
    Ok(())
}

#[test]
fn threads_of_ones_own_enter_a_run() -> Result<(), Error> {
    let run = Run::builder(Lock::Ticket, 2).bits(8).mode(Mode::Seed(1)).open()?;
    let other = run.clone();
    let handle = thread::spawn(move || other.enter(1).map(|log| log.thread()));
    let entered = run.enter(0)?;
    assert_eq!(entered.thread(), 0);
    drop(entered);
    assert_eq!(handle.join().expect("it does not panic")?, 1);
    assert_eq!(run.wait(LIMIT), vec![]);
    Ok(())
}

/// Both threads end while they are waited for, or thread 0 polls until it is stopped.
#[test]
fn who_is_missing_after_a_wait() -> Result<(), Error> {
    for (limit, missing) in [(LIMIT, vec![]), (LONG, vec![0])] {
        let run = Run::builder(Lock::Ticket, 2).open()?;
        let work = move |run: Run, thread| {
            let _log = run.enter(thread).expect("it is free");
            let word = AtomicBool::new(false);
            thread::sleep(LONG / 10);
            while thread == 0 && limit == LONG && !word.load(SeqCst) {}
        };
        let started = [0, 1].map(|thread| {
            let run = run.clone();
            thread::spawn(move || work(run, thread))
        });
        assert_eq!(run.wait(limit), missing);
        let stopped = started.map(|thread| thread.join().is_err());
        assert_eq!(stopped, [0, 1].map(|thread| missing.contains(&thread)));
    }
    Ok(())
}

/// What was noted until then is in a clone of the run.
#[test]
fn a_panic_of_the_work_goes_on() -> Result<(), Error> {
    let lock = TicketLock::new();
    let run = Run::builder(Lock::Ticket, 2).bits(8).mode(Mode::Seed(1)).open()?;
    let kept = run.clone();
    let caught = thread::spawn(move || {
        let _ = run.threads(LIMIT, |log| {
            round(&lock);
            assert_eq!(log.thread(), 0, "as it is meant to be");
        });
    });
    let said = caught.join().expect_err("it panics");
    assert!(said.downcast_ref::<String>().expect("a text").contains("as it is meant to be"));
    let trace = kept.trace()?;
    assert!(trace.contains("\n1 acquire\n") && trace.contains("\n1 release\n"), "{trace}");
    Ok(())
}
