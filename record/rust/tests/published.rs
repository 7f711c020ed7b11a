//! What a refusal says of the published lock, after each fault.
// SPDX-License-Identifier: Apache-2.0 OR MIT
#![cfg(feature = "check")]

use std::panic::catch_unwind;
use std::sync::atomic::Ordering::SeqCst;
use std::time::Duration;

use lockreplay_record::{
    call, explore, note, AtomicU8, Call, Condvar, Error, Lock, Mode, Mutex, Outcome, Run, Step,
    Word,
};

const LIMIT: Duration = Duration::from_secs(60);

/// What is said of the first run that is refused, of two threads with at most one preemption. The
/// place of the move is in this file, whatever noted it.
fn said<L: Sync>(lock: Lock, new: impl Fn() -> L, round: impl Fn(&L, usize) + Sync) -> String {
    for run in Run::builder(lock, 2).bits(8).explore(1) {
        let (run, tested) = (run.unwrap(), new());
        run.threads(LIMIT, |log| round(&tested, log.thread())).unwrap();
        match run.check() {
            Err(Error::Refused { made, reason, .. }) => {
                assert!(made.starts_with("tests/published.rs:"), "{made}");
                return reason;
            }
            other => other.unwrap(),
        }
    }
    panic!("no run is refused");
}

/// The same of one thread that notes these moves of a call.
fn said_of(lock: Lock, due: Call, steps: &[Step]) -> String {
    said(
        lock,
        || (),
        |(), _| {
            let _call = call(due);
            steps.iter().for_each(|step| note(*step));
        },
    )
}

fn is_after(fault: &str, more: &str, said: &str) {
    let end = format!(": {more}");
    assert!(said.starts_with(fault) && said.ends_with(&end), "{said}, due {end}");
}

struct Ticket {
    next: AtomicU8,
    serving: AtomicU8,
}

impl Ticket {
    fn new() -> Ticket {
        let [next, serving] = [AtomicU8::new(0), AtomicU8::new(0)];
        Ticket { next: next.noted(Word::NextTicket), serving: serving.noted(Word::NowServing) }
    }

    fn acquire(&self, looks: usize) {
        let _call = call(Call::Acquire);
        let ticket = self.next.fetch_add(1, SeqCst);
        let _ = (0..looks).find(|_| self.serving.load(SeqCst) == ticket);
    }

    fn release(&self, more: u8, times: usize) {
        let _call = call(Call::Release);
        let next = self.serving.load(SeqCst).wrapping_add(more);
        (0..times).for_each(|_| self.serving.store(next, SeqCst));
    }
}

fn said_of_ticket(looks: usize, more: u8, times: usize) -> String {
    said(Lock::Ticket, Ticket::new, |lock, _| {
        lock.acquire(looks);
        lock.release(more, times);
    })
}

#[test]
fn a_release_of_a_thread_that_waits() {
    let said = said_of_ticket(1, 1, 1);
    let due = "Busy: the thread has a pending call: the thread entered while the published lock \
               still waits: see its read at tests/published.rs:";
    assert!(said.starts_with(due), "{said}");
}

#[test]
fn a_release_of_a_thread_that_did_not_look() {
    let next = "the published lock's next step is 'read now_serving found 0'";
    is_after("Busy", next, &said_of_ticket(0, 1, 1));
}

#[test]
fn a_step_after_the_call() {
    let said = said_of_ticket(usize::MAX, 1, 2);
    let due = "NoCall: the thread has no pending call: the published lock's call ended with its \
               write at tests/published.rs:";
    assert!(said.starts_with(due), "{said}");
}

#[test]
fn another_value() {
    is_after("LeftOther", "the published lock leaves 1", &said_of_ticket(usize::MAX, 2, 1));
    let found = said_of(Lock::Ticket, Call::Acquire, &[Step::add(Word::NextTicket, 5)]);
    is_after("FoundOther", "the published lock has 0", &found);
}

#[test]
fn another_step() {
    let next = "the published lock's next step is 'write next left 0'";
    is_after("WrongStep", next, &said_of(Lock::Mcs, Call::Acquire, &[Step::swap(Word::Tail, 0)]));
    let next = "the published lock's next step is 'add next_ticket found 0'";
    let swap = [Step::swap(Word::Tail, 0)];
    is_after("WrongLock", next, &said_of(Lock::Ticket, Call::Acquire, &swap));
}

/// Thread 1 queues behind thread 0, and makes another step in place of each of its own in turn.
#[test]
fn each_step_of_a_thread_that_queues() {
    let [clear, swap] = [Step::write(Word::Next, 0), Step::swap(Word::Tail, 0)];
    let steps = [
        (clear, "write next left 0"),
        (swap.with_found(1), "swap tail found 1"),
        (Step::write(Word::Locked, 1), "write locked left 1"),
        (Step::write(Word::Next, 2).of(0), "write next of 0 left 2"),
        (Step::read(Word::Locked, 1), "read locked found 1"),
    ];
    for (count, (_, due)) in steps.iter().enumerate() {
        let said = said(
            Lock::Mcs,
            || (),
            |(), thread| {
                let _call = call(Call::Acquire);
                if thread == 0 {
                    [clear, swap].iter().for_each(|step| note(*step));
                } else {
                    steps.iter().take(count).for_each(|(step, _)| note(*step));
                    note(Step::cas(Word::Tail, true));
                }
            },
        );
        is_after("WrongStep", &format!("the published lock's next step is '{due}'"), &said);
    }
}

/// A section and a step of a ticket lock, each in place of the other.
#[test]
fn each_other_step() {
    let read = Step::read(Word::NowServing, 0);
    let said = said(
        Lock::Ticket,
        || (),
        |(), _| {
            let acquire = call(Call::Acquire);
            [Step::add(Word::NextTicket, 0), read].iter().for_each(|step| note(*step));
            drop(acquire);
            let _release = call(Call::Release);
            [read, read].iter().for_each(|step| note(*step));
        },
    );
    is_after("WrongStep", "the published lock's next step is 'write now_serving left 1'", &said);
    let next = "the published lock's next step is 'section entered'";
    is_after("WrongLock", next, &said_of(Lock::RwFifo, Call::ReadLock, &[read]));
}

#[test]
fn another_word() {
    let on = "the published lock's step is on 'now_serving'";
    let steps = [Step::add(Word::NextTicket, 0), Step::read(Word::NextTicket, 0)];
    is_after("OtherWord", on, &said_of(Lock::Ticket, Call::Acquire, &steps));
    let on = "the published lock's step is on 'next_ticket'";
    let step = Step::add(Word::NowServing, 0);
    is_after("OtherWord", on, &said_of(Lock::Ticket, Call::Acquire, &[step]));
    let on = "the published lock's step is on 'next of 0'";
    let step = Step::write(Word::Locked, 0);
    is_after("OtherWord", on, &said_of(Lock::Mcs, Call::Acquire, &[step]));
}

#[test]
fn another_end_of_a_compare_and_swap() {
    let ends = "the published lock's compare-and-swap is done, it finds 1";
    let said = said(
        Lock::Mcs,
        || (),
        |(), _| {
            let acquire = call(Call::Acquire);
            note(Step::write(Word::Next, 0));
            note(Step::swap(Word::Tail, 0));
            drop(acquire);
            let _release = call(Call::Release);
            note(Step::read(Word::Next, 0));
            note(Step::cas(Word::Tail, false));
        },
    );
    is_after("WroteOther", ends, &said);
}

#[test]
fn a_compare_and_swap_that_is_left_out() {
    let [read, write] = [Step::read(Word::Next, 0), Step::write(Word::Next, 0)];
    let round = |_: &(), _| {
        let acquire = call(Call::Acquire);
        [write, Step::swap(Word::Tail, 0)].iter().for_each(|step| note(*step));
        drop(acquire);
        let _release = call(Call::Release);
        [read, read].iter().for_each(|step| note(*step));
    };
    let next = "the published lock's next step is 'cas tail done'";
    is_after("WrongStep", next, &said(Lock::Mcs, || (), round));
}

/// Thread 0 writes. Thread 1 waits, and makes another call.
#[test]
fn another_call_of_a_thread_that_waits() {
    for (due, then, went) in [
        (Call::ReadLock, Call::ReadLock, "went on"),
        (Call::WriteLock, Call::WriteLock, "went on"),
        (Call::ReadLock, Call::ReadUnlock, "entered"),
        (Call::WriteLock, Call::WriteUnlock, "entered"),
    ] {
        let said = said(
            Lock::RwSimple,
            || Mutex::new(()),
            |mutex, thread| {
                let (due, outcome) = match thread {
                    0 => (Call::WriteLock, Outcome::Entered),
                    _ => (due, Outcome::Waits),
                };
                drop(call(due));
                mutex.lock().unwrap().note(outcome);
                if thread == 1 {
                    drop(call(then));
                }
            },
        );
        let due = format!(
            "Busy: the thread has a pending call: the thread {went} while the published lock still \
             waits: see its section at tests/published.rs:"
        );
        assert!(said.starts_with(&due), "{said}, due {due}");
    }
}

/// A search that panics names the run, and the threads that wait.
#[test]
fn a_search_ends_with_a_panic() {
    let polls = |open: &AtomicU8, _| while open.load(SeqCst) == 0 {};
    let new = || AtomicU8::new(0);
    let search = || explore(Run::builder(Lock::Ticket, 2), 0, new, polls);
    let said = catch_unwind(search).expect_err("no thread gets on");
    let said = said.downcast_ref::<String>().expect("a text");
    assert_eq!(said, "run 1: it hangs: threads [0, 1] wait");
}

/// A refusal has the moves of the run, each with its line in the trace and its place.
#[test]
fn a_refusal_lists_the_moves() {
    let first = line!();
    let round = |_: &(), _| {
        let _call = call(Call::Acquire);
        note(Step::add(Word::NextTicket, 5));
    };
    let search = || explore(Run::builder(Lock::Ticket, 1).bits(8), 0, || (), round);
    let said = catch_unwind(search).expect_err("no ticket was taken");
    let place = |line: u32| format!("tests/published.rs:{}", first + line);
    let due = format!(
        "run 1: refused at line 4 of the trace, {}, '0 add next_ticket found 5': FoundOther: \
         the lock has another value in the word: the published lock has 0\n    \
         3 0 acquire                              {}\n    \
         4 0 add next_ticket found 5              {}",
        place(3),
        place(2),
        place(3)
    );
    assert_eq!(said.downcast_ref::<String>(), Some(&due));
}

/// A thread sleeps for longer than a run may take, and is stopped at its next operation.
#[test]
fn a_run_that_does_not_end() {
    let sleeps = |word: &AtomicU8, _| {
        std::thread::sleep(Duration::from_secs(12));
        word.store(1, SeqCst);
    };
    let search = || explore(Run::builder(Lock::Ticket, 1), 0, || AtomicU8::new(0), sleeps);
    let said = catch_unwind(search).expect_err("its time is over");
    let due = "run 1: it did not end in 10s: thread 0 has its turn and does not give it back: it \
               blocks, or it polls without this crate's atomics";
    assert_eq!(said.downcast_ref::<String>().map(String::as_str), Some(due));
}

#[test]
fn free_threads_have_no_order() {
    for (mode, has_order) in [(Mode::Free, false), (Mode::Noise(1), false), (Mode::Ordered, true)] {
        let said = Run::builder(Lock::Ticket, 1).mode(mode).open().unwrap().check();
        let due = "of free threads `locktrace order` finds the order";
        assert_eq!(said.map_err(|error| error.to_string()).err(), (!has_order).then(|| due.into()));
    }
}

/// A run that hangs names the last notification, and whom it woke: not the thread that still waits.
#[test]
fn a_lost_notification() {
    for (notifies, woke) in [(true, "woke threads [1]"), (false, "nobody was notified")] {
        let new = || (Mutex::new(false), Condvar::new());
        let round = |(open, changed): &(Mutex<bool>, Condvar), thread: usize| {
            let mut open = open.lock().unwrap();
            while thread > 0 && !*open {
                open = changed.wait(open).unwrap();
            }
            *open = true;
            if thread == 0 && notifies {
                changed.notify_one();
            }
        };
        let said = catch_unwind(|| explore(Run::builder(Lock::RwSimple, 3), 0, new, round));
        let said = said.expect_err("two threads wait, and one is woken at most");
        let said = said.downcast_ref::<String>().expect("a text").lines().next().expect("a line");
        assert!(said.contains("it hangs: threads [") && said.ends_with(woke), "{said}");
        assert_eq!(said.contains("; the last notification, at tests/published.rs:"), notifies);
    }
}

/// Writers that do not wait.
fn said_of_sections(mutexes: usize, due: Call) -> String {
    let new = || Vec::from_iter((0..mutexes).map(|_| Mutex::new(())));
    said(Lock::RwSimple, new, |mutexes, thread| {
        let _call = call(due);
        mutexes[thread % mutexes.len()].lock().unwrap().note(Outcome::Entered);
    })
}

#[test]
fn another_outcome() {
    let answers = "the published lock answers 'waits' here";
    is_after("OtherOutcome", answers, &said_of_sections(1, Call::WriteLock));
}

#[test]
fn two_mutexes() {
    let count = "a section before it has 1";
    is_after("CountNotAbove", count, &said_of_sections(2, Call::ReadLock));
}

/// The message on a thread that ends, or goes on, in an acquire with these steps.
fn said_of_end(steps: &[Step], goes_on: bool) -> String {
    let run = Run::builder(Lock::Ticket, 1).bits(8).mode(Mode::Seed(1)).open().unwrap();
    let other = AtomicU8::new(0);
    let ending = run.threads(LIMIT, |_| {
        let _call = call(Call::Acquire);
        steps.iter().for_each(|step| note(*step));
        while goes_on && other.load(SeqCst) == 0 {}
    });
    ending.unwrap();
    run.check().map_or_else(|error| error.to_string(), |()| String::new())
}

#[test]
fn another_end_of_a_thread() {
    let steps = [Step::add(Word::NextTicket, 0), Step::read(Word::NowServing, 0)];
    for (count, goes_on, due) in [
        (1, false, "thread 0 has ended inside a call"),
        (1, true, ""),
        (2, false, ""),
        (2, true, "thread 0 goes on with a call that is over"),
    ] {
        assert_eq!(said_of_end(&steps[..count], goes_on), due);
    }
}

/// Nobody knows the last steps of a thread whose log was full.
#[test]
fn a_full_log_has_no_end() {
    for (room, due) in [(1, ""), (2, "thread 0 has ended inside a call")] {
        let run =
            Run::builder(Lock::Ticket, 1).bits(8).mode(Mode::Seed(1)).room(room).open().unwrap();
        let adds = |_: &_| {
            let _call = call(Call::Acquire);
            note(Step::add(Word::NextTicket, 0));
        };
        run.threads(LIMIT, adds).unwrap();
        let said = run.check().map_or_else(|error| error.to_string(), |()| String::new());
        assert_eq!(said, due);
    }
}
