//! The line of each operation on an atomic of a lock: its word, and what it found and left.
// SPDX-License-Identifier: Apache-2.0 OR MIT
#![cfg(feature = "record")]

use std::sync::atomic::Ordering::SeqCst;
use std::sync::Barrier;
use std::time::Duration;

use lockreplay_record::{
    own_record, AtomicBool, AtomicPtr, AtomicU8, AtomicUsize, Ending, Error, Lock, Mode, Run,
    RunBuilder, Word,
};

const LIMIT: Duration = Duration::from_secs(60);

/// The moves of a run of one thread that does this.
fn moves(setup: RunBuilder, work: impl Fn() + Sync) -> Result<Vec<String>, Error> {
    let run = setup.mode(Mode::Ordered).open()?;
    run.threads(LIMIT, |_| work())?;
    let lines = run.trace()?;
    Ok(lines.lines().skip(2).map(|line| line.strip_prefix("0 ").unwrap_or("?").into()).collect())
}

#[test]
fn each_operation_has_its_line() -> Result<(), Error> {
    type Operation = fn(&AtomicUsize);
    let rows: [(&str, Operation); 16] = [
        ("read tail found 3", |word| assert_eq!(word.load(SeqCst), 3)),
        ("write tail left 5", |word| word.store(5, SeqCst)),
        ("swap tail found 3 left 5", |word| assert_eq!(word.swap(5, SeqCst), 3)),
        ("cas tail found 3 left 5 done", |word| {
            assert_eq!(word.compare_exchange(3, 5, SeqCst, SeqCst), Ok(3));
        }),
        ("cas tail found 3 failed", |word| {
            assert_eq!(word.compare_exchange(4, 5, SeqCst, SeqCst), Err(3));
        }),
        ("cas tail found 3 failed", |word| {
            assert_eq!(word.compare_exchange_weak(4, 5, SeqCst, SeqCst), Err(3));
        }),
        ("add tail found 3 left 5", |word| assert_eq!(word.fetch_add(2, SeqCst), 3)),
        ("add tail found 3 left 1", |word| assert_eq!(word.fetch_sub(2, SeqCst), 3)),
        ("swap tail found 3 left 2", |word| assert_eq!(word.fetch_and(6, SeqCst), 3)),
        ("swap tail found 3 left 7", |word| assert_eq!(word.fetch_or(4, SeqCst), 3)),
        ("swap tail found 3 left 2", |word| assert_eq!(word.fetch_xor(1, SeqCst), 3)),
        ("swap tail found 3 left 18446744073709551615", |word| {
            assert_eq!(word.fetch_nand(0, SeqCst), 3)
        }),
        ("swap tail found 3 left 5", |word| assert_eq!(word.fetch_max(5, SeqCst), 3)),
        ("swap tail found 3 left 3", |word| assert_eq!(word.fetch_max(2, SeqCst), 3)),
        ("swap tail found 3 left 2", |word| assert_eq!(word.fetch_min(2, SeqCst), 3)),
        ("", |word| assert_eq!(word.peek(SeqCst), 3)),
    ];
    for (due, operation) in rows {
        let word = AtomicUsize::new(3).noted(Word::Tail);
        let got = moves(Run::builder(Lock::Mcs, 1), || operation(&word))?;
        assert_eq!(got, Vec::from_iter((!due.is_empty()).then(|| due.to_owned())));
    }
    Ok(())
}

/// A number with a sign is noted as the one that has the same bits.
#[test]
fn each_number_has_its_bits() -> Result<(), Error> {
    macro_rules! left {
        ($(($atomic:ident, $value:expr)),*) => { [$({
            let word = lockreplay_record::$atomic::new(0).noted(Word::Tail);
            moves(Run::builder(Lock::Mcs, 1), || word.store($value, SeqCst))?
        }),*] };
    }
    let got = [
        left!((AtomicU8, !0), (AtomicU16, !0), (AtomicU32, !0), (AtomicU64, !0), (AtomicUsize, !0)),
        left!((AtomicI8, -1), (AtomicI16, -1), (AtomicI32, -1), (AtomicI64, -1), (AtomicIsize, -1)),
    ];
    let widest = u64::MAX;
    let due = [255, 65_535, 4_294_967_295, widest, widest];
    assert_eq!(got, [(); 2].map(|()| due.map(|value| [format!("write tail left {value}")])));
    Ok(())
}

#[test]
fn each_operation_on_a_flag_has_its_line() -> Result<(), Error> {
    type Operation = fn(&AtomicBool, bool) -> bool;
    let rows: [(Operation, [u8; 4]); 4] = [
        // the results for 0 and 0, 0 and 1, 1 and 0, 1 and 1
        (|flag, value| flag.fetch_and(value, SeqCst), [0, 0, 0, 1]),
        (|flag, value| flag.fetch_or(value, SeqCst), [0, 1, 1, 1]),
        (|flag, value| flag.fetch_xor(value, SeqCst), [0, 1, 1, 0]),
        (|flag, value| flag.fetch_nand(value, SeqCst), [1, 1, 1, 0]),
    ];
    for (operation, due) in rows {
        for (at, left) in due.into_iter().enumerate() {
            let (found, value) = (at / 2 == 1, at % 2 == 1);
            let flag = AtomicBool::new(found).noted(Word::Tail);
            let got =
                moves(Run::builder(Lock::Mcs, 1), || assert_eq!(operation(&flag, value), found))?;
            assert_eq!(got, [format!("swap tail found {} left {left}", u8::from(found))]);
        }
    }
    Ok(())
}

/// Its value is what was found there when it was noted.
static LOOKED_UP: AtomicU8 =
    AtomicU8::new(0).noted_as(Word::Tail, |_| u64::from(LOOKED_UP.peek(SeqCst)));

/// What an operation leaves is looked up before it: afterwards another thread may change it.
#[test]
fn values_are_looked_up_before_they_are_left() -> Result<(), Error> {
    type Operation = fn();
    let rows: [(&str, Operation); 4] = [
        ("write tail left 3", || LOOKED_UP.store(5, SeqCst)),
        ("swap tail found 5 left 3", || assert_eq!(LOOKED_UP.swap(5, SeqCst), 3)),
        ("cas tail found 5 left 3 done", || {
            assert_eq!(LOOKED_UP.compare_exchange(3, 5, SeqCst, SeqCst), Ok(3));
        }),
        ("cas tail found 5 left 3 done", || {
            assert!(LOOKED_UP.fetch_update(SeqCst, SeqCst, |_| Some(5)).is_ok());
        }),
    ];
    for (due, operation) in rows {
        LOOKED_UP.store(3, SeqCst);
        let got = moves(Run::builder(Lock::Mcs, 1), operation)?;
        assert_eq!(got.last().map(String::as_str), Some(due));
    }
    Ok(())
}

/// It is the release of a ticket lock, in whichever direction the tickets are served.
#[test]
fn a_change_of_the_served_ticket_is_two_steps() -> Result<(), Error> {
    let served = AtomicU8::new(255).noted(Word::NowServing);
    let got = moves(Run::builder(Lock::Ticket, 1), || {
        assert_eq!(served.fetch_add(1, SeqCst), 255);
        assert_eq!(served.fetch_sub(1, SeqCst), 0);
    })?;
    let up = ["read now_serving found 255", "write now_serving left 0"];
    let down = ["read now_serving found 0", "write now_serving left 255"];
    assert_eq!(got, [up, down].concat());
    Ok(())
}

/// Counters of 8 bits that begin at 255 wrap around at once, and the trace counts from 0.
#[test]
fn counters_begin_where_the_run_says() -> Result<(), Error> {
    let (next, serving) = (AtomicU8::new(255), AtomicU8::new(255));
    let (next, serving) = (next.noted(Word::NextTicket), serving.noted(Word::NowServing));
    let run = Run::builder(Lock::Ticket, 1).bits(8).start(255).mode(Mode::Ordered).open()?;
    run.threads(LIMIT, |_| {
        assert_eq!(next.fetch_add(1, SeqCst), 255);
        assert_eq!(next.fetch_add(1, SeqCst), 0);
        serving.store(0, SeqCst);
    })?;
    let trace = run.trace()?;
    let due = "# counters began at 255, here at 0\nlock ticket threads 1 bits 8\n\
               0 add next_ticket found 0 left 1\n0 add next_ticket found 1 left 2\n\
               0 write now_serving left 1\n";
    assert_eq!(trace.split_once('\n').map(|(_, rest)| rest), Some(due));
    Ok(())
}

/// A thread that comes between the load and the exchange loses no update.
#[test]
fn an_update_is_tried_with_what_it_found() -> Result<(), Error> {
    for seed in 0..20 {
        let word = AtomicUsize::new(0);
        let run = Run::builder(Lock::Mcs, 2).mode(Mode::Seed(seed)).open()?;
        let ending = run.threads(LIMIT, |_| {
            for _ in 0..10 {
                word.fetch_update(SeqCst, SeqCst, |found| Some(found + 1)).unwrap();
            }
        })?;
        assert_eq!((ending, word.into_inner()), (Ending::Complete, 20));
    }
    Ok(())
}

/// Two threads have had one record, which each of them takes for its own.
#[test]
fn a_record_of_two_threads_is_each_ones_own() -> Result<(), Error> {
    let record = AtomicPtr::new(std::ptr::null_mut()).noted(Word::Next);
    let both = Barrier::new(2);
    let run = Run::builder(Lock::Mcs, 2).mode(Mode::Ordered).open()?;
    run.threads(LIMIT, |_| {
        own_record(&record);
        both.wait();
        record.store(&record as *const AtomicPtr<u8> as *mut u8, SeqCst);
    })?;
    let trace = run.trace()?;
    let mut lines = Vec::from_iter(trace.lines().skip(2));
    lines.sort_unstable();
    assert_eq!(lines, ["0 write next left 1", "1 write next left 2"]);
    Ok(())
}

/// Thread 1 takes what thread 0 had, or a part of it, and thread 0 takes that again. Thread 2 finds
/// it in between and afterwards.
#[test]
fn a_record_is_its_last_owners() -> Result<(), Error> {
    let words = [0_u8; 4];
    let tail = AtomicPtr::new(std::ptr::null_mut()).noted(Word::Tail);
    let logs = std::env::temp_dir().join(format!("lockreplay-owners-{}", std::process::id()));
    for mode in [Mode::Free, Mode::Ordered] {
        for taken in [&words[..], &words[1..], &words[..3]] {
            let (run, all) =
                (Run::builder(Lock::Mcs, 3).mode(mode.clone()).open()?, Barrier::new(3));
            run.threads(LIMIT, |log| {
                for (owner, record) in [(0, &words[..]), (1, taken), (0, &words[..])] {
                    all.wait();
                    if log.thread() == owner {
                        own_record(record);
                    }
                    all.wait();
                    if log.thread() == 2 {
                        tail.store(&words[2] as *const u8 as *mut u8, SeqCst);
                    }
                }
            })?;
            run.save(&logs)?;
            let log = std::fs::read_to_string(logs.join("thread-2.log")).expect("it was saved");
            let found = [1, 2, 1].map(|found| format!("write tail left {found}\n")).concat();
            assert!(log.ends_with(&format!(" thread 2\n{found}dropped 0\n")), "{log}");
        }
    }
    std::fs::remove_dir_all(logs).expect("nobody uses it");
    Ok(())
}

/// A record may begin where a smaller one did, as a whole does with its first part.
#[test]
fn a_record_that_grows_has_its_new_end() -> Result<(), Error> {
    let words = [0_u8, 1];
    let tail = AtomicPtr::new(std::ptr::null_mut()).noted(Word::Tail);
    let store = || tail.store(&words[1] as *const u8 as *mut u8, SeqCst);
    let got = moves(Run::builder(Lock::Mcs, 1), || {
        own_record(&words[0]);
        store();
        own_record(&words);
        store();
    })?;
    assert_eq!(got, ["write tail left 256", "write tail left 1"]);
    Ok(())
}
