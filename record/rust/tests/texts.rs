//! The texts of a run, and what is said if the crate is used wrongly.
// SPDX-License-Identifier: Apache-2.0 OR MIT
#![cfg(feature = "record")]

use std::error::Error as _;
use std::fs;
use std::path::{Path, PathBuf};
use std::ptr;
use std::sync::atomic::Ordering::SeqCst;
use std::time::Duration;

use lockreplay_record::{
    call, note, own_record, AtomicBool, AtomicPtr, AtomicU8, AtomicUsize, Call, Error, Lock, Mode,
    Mutex, Outcome, Run, RunBuilder, Schedule, Step, Word,
};

const LIMIT: Duration = Duration::from_secs(60);

/// The moves of a run of one thread that does this.
fn moves(setup: RunBuilder, work: impl Fn() + Sync) -> Result<Vec<String>, Error> {
    let run = setup.mode(Mode::Ordered).open()?;
    run.threads(LIMIT, |_| work())?;
    let lines = run.trace()?;
    Ok(lines.lines().skip(2).map(|line| line.strip_prefix("0 ").unwrap_or("?").into()).collect())
}

/// A folder of its own for a test.
fn folder(name: &str) -> PathBuf {
    let path = std::env::temp_dir().join(format!("lockreplay-{name}-{}", std::process::id()));
    let _ = fs::remove_dir_all(&path);
    path
}

/// A saved file: its first line, which has the run's number, and the text after it.
fn numbered(folder: &Path, name: &str) -> (String, String) {
    let text = fs::read_to_string(folder.join(name)).expect("it was saved");
    let (first, rest) = text.split_once('\n').expect("it has lines");
    let digits = first.strip_prefix("# run ").expect("the first line has the number");
    assert_eq!(digits.len(), 16, "{first}");
    assert!(u64::from_str_radix(digits, 16).is_ok(), "{first}");
    (digits.to_owned(), rest.to_owned())
}

#[test]
fn each_call_and_outcome_has_its_word() -> Result<(), Error> {
    let rows = [
        (Call::ReadLock, Outcome::Waits, "rlock", "section 1 waits"),
        (Call::WriteLock, Outcome::Moved, "wlock", "section 1 moved"),
        (Call::Downgrade, Outcome::Entered, "downgrade", "section 1 entered"),
        (Call::ReadUnlock, Outcome::Left, "runlock", "section 1 left"),
        (Call::WriteUnlock, Outcome::Left, "wunlock", "section 1 left"),
    ];
    for (made, outcome, call_due, section_due) in rows {
        let got = moves(Run::builder(Lock::RwFifo, 1), || {
            let _call = call(made);
            Mutex::new(()).lock().unwrap().note(outcome);
        })?;
        assert_eq!(got, [call_due, section_due]);
    }
    Ok(())
}

#[test]
fn a_poll_is_written_twice() -> Result<(), Error> {
    let served = AtomicU8::new(7).noted(Word::NowServing);
    let got = moves(Run::builder(Lock::Ticket, 1), || {
        (0..5).for_each(|_| assert_eq!(served.load(SeqCst), 7));
        (0..3).for_each(|_| served.store(8, SeqCst));
        served.load(SeqCst);
    })?;
    let (read, write) = ("read now_serving found 7", "write now_serving left 8");
    assert_eq!(got, [read, read, write, write, write, "read now_serving found 8"]);
    let state = Mutex::new(());
    let got = moves(Run::builder(Lock::RwSimple, 1), || {
        (0..4).for_each(|_| state.lock().unwrap().note(Outcome::Waits));
        state.lock().unwrap().note(Outcome::Entered);
    })?;
    assert_eq!(got, ["section 1 waits", "section 2 waits", "section 5 entered"]);
    Ok(())
}

struct Record {
    next: AtomicPtr<Record>,
    granted: AtomicBool,
}

impl Record {
    fn new() -> Record {
        Record {
            next: AtomicPtr::new(ptr::null_mut()).noted(Word::Next),
            granted: AtomicBool::new(true).noted_as(Word::Locked, |granted| u64::from(!granted)),
        }
    }

    fn pointer(&self) -> *mut Record {
        self as *const Record as *mut Record
    }
}

/// A record on the stack of each thread: thread 1's first, as nobody's and as the own one, and then
/// as thread 0 sees it.
#[test]
fn records_are_known_by_their_addresses() -> Result<(), Error> {
    let (records, links) = ([Record::new(), Record::new()], AtomicUsize::new(0));
    let run = Run::builder(Lock::Mcs, 2).mode(Mode::Ordered).open()?;
    run.threads(LIMIT, |log| {
        let (own, other) = (&records[log.thread()], &records[1 - log.thread()]);
        if log.thread() == 1 {
            own.next.store(other.pointer(), SeqCst);
            own_record(own);
            own.next.store(own.pointer(), SeqCst);
            links.store(1, SeqCst);
        } else {
            own_record(own);
            while links.load(SeqCst) == 0 {}
            other.next.store(own.pointer(), SeqCst);
            other.granted.store(false, SeqCst);
            own.next.load(SeqCst);
        }
    })?;
    let trace = run.trace()?;
    let (first, second): (Vec<&str>, Vec<&str>) =
        trace.lines().skip(2).partition(|line| line.starts_with('1'));
    // thread 0 may have named its record before or after the first store
    let nobody = ["1 write next of 255 left 256", "1 write next of 255 left 1"];
    assert!(nobody.contains(&first[0]), "{trace}");
    assert_eq!(first[1..], ["1 write next left 2"]);
    let due = ["0 write next of 1 left 1", "0 write locked of 1 left 1", "0 read next found 0"];
    assert_eq!(second, due);
    Ok(())
}

/// A thread may have another record at each call. The one before is nobody's then.
#[test]
fn a_thread_changes_its_record() -> Result<(), Error> {
    let [first, second] = [Record::new(), Record::new()];
    let got = moves(Run::builder(Lock::Mcs, 1), || {
        own_record(&first);
        first.next.store(first.pointer(), SeqCst);
        own_record(&second);
        second.next.store(second.pointer(), SeqCst);
        second.next.store(first.pointer(), SeqCst);
    })?;
    assert_eq!(got, ["write next left 1", "write next left 1", "write next left 256"]);
    Ok(())
}

#[test]
fn a_full_log_counts_what_it_drops() -> Result<(), Error> {
    let word = AtomicU8::new(0).noted(Word::NextTicket);
    let path = folder("full");
    let run = Run::builder(Lock::Ticket, 1).bits(8).mode(Mode::Seed(9)).room(2).open()?;
    run.threads(LIMIT, |_| (0..5).for_each(|n| assert_eq!(word.fetch_add(1, SeqCst), n)))?;
    run.save(&path)?;
    let moves = "add next_ticket found 0 left 1\nadd next_ticket found 1 left 2\n";
    let header = "# seed 9\nlock ticket threads 1 bits 8";
    let (number, log) = numbered(&path, "thread-0.log");
    assert_eq!(log, format!("{header} thread 0\n{moves}dropped 3\n"));
    let (same, trace) = numbered(&path, "run.trace");
    let ends = "# thread 0 has ended\n";
    assert_eq!(trace, format!("{header}\n{}{ends}", moves.replace("add", "0 add")));
    assert_eq!(number, same);
    // a later run of free threads leaves nothing of this one
    let run = Run::builder(Lock::Mcs, 1).open()?;
    run.save(&path)?;
    let (other, log) = numbered(&path, "thread-0.log");
    assert_eq!(log, "lock mcs threads 1 bits 64 thread 0\n# thread 0 has not ended\n");
    assert_ne!(number, other);
    assert!(!path.join("run.trace").exists());
    fs::remove_dir_all(&path).expect("the folder was made");
    Ok(())
}

/// A poll that a log with room would leave out is not dropped, wherever the log became full.
#[test]
fn a_full_log_leaves_out_what_any_log_does() -> Result<(), Error> {
    let path = folder("full-of-polls");
    for room in 0..3 {
        let run = Run::builder(Lock::Ticket, 1).room(room).open()?;
        let reads = [7, 7, 7, 7, 0].map(|found| Step::read(Word::NowServing, found));
        run.threads(LIMIT, |_| reads.into_iter().for_each(note))?;
        run.save(&path)?;
        let (reads, dropped) = ("read now_serving found 7\n".repeat(room), 3 - room);
        let (_, log) = numbered(&path, "thread-0.log");
        assert!(log.ends_with(&format!(" thread 0\n{reads}dropped {dropped}\n")), "{log}");
    }
    fs::remove_dir_all(&path).expect("the folder was made");
    Ok(())
}

/// By default a run has room for 65,536 moves of each thread.
#[test]
fn a_log_has_room_by_itself() -> Result<(), Error> {
    let path = folder("default-room");
    let run = Run::builder(Lock::Ticket, 1).open()?;
    run.threads(LIMIT, |_| (0..65_540).for_each(|n| note(Step::add(Word::NextTicket, n))))?;
    run.save(&path)?;
    let (_, log) = numbered(&path, "thread-0.log");
    assert!(log.ends_with("\nadd next_ticket found 65535\ndropped 4\n"));
    fs::remove_dir_all(&path).expect("the folder was made");
    Ok(())
}

/// Logs of an earlier run with more threads are taken away, and no other file.
#[test]
fn an_earlier_run_leaves_no_log() -> Result<(), Error> {
    let path = folder("earlier");
    fs::create_dir_all(&path).expect("the folder is new");
    for name in ["other.log", "run.trace", "thread-0.log", "thread-1.log", "thread-63.log"] {
        fs::write(path.join(name), "of an earlier run\n").expect("there is room");
    }
    Run::builder(Lock::Mcs, 1).open()?.save(&path)?;
    let entries = fs::read_dir(&path).expect("the folder is there");
    let mut names = Vec::from_iter(entries.map(|it| it.expect("it is there").file_name()));
    names.sort_unstable();
    assert_eq!(names, ["other.log", "thread-0.log"]);
    assert_ne!(fs::read_to_string(path.join("thread-0.log")).unwrap(), "of an earlier run\n");
    fs::remove_dir_all(&path).expect("the folder was made");
    Ok(())
}

/// A round of a ticket lock with three threads before this one in the queue.
fn ticket_round() {
    let acquire = call(Call::Acquire);
    note(Step::add(Word::NextTicket, 3));
    for served in 0..3 {
        (0..5).for_each(|_| note(Step::read(Word::NowServing, served)));
    }
    note(Step::read(Word::NowServing, 3));
    drop(acquire);
    let _release = call(Call::Release);
    note(Step::read(Word::NowServing, 3));
    note(Step::write(Word::NowServing, 4));
}

/// A round of an MCS lock with a predecessor, and a successor that links itself late.
fn mcs_round() {
    let acquire = call(Call::Acquire);
    note(Step::write(Word::Next, 0));
    note(Step::swap(Word::Tail, 2));
    note(Step::write(Word::Locked, 1));
    note(Step::write(Word::Next, 1).of(1));
    (0..5).for_each(|_| note(Step::read(Word::Locked, 1)));
    note(Step::read(Word::Locked, 0));
    drop(acquire);
    let _release = call(Call::Release);
    note(Step::read(Word::Next, 0));
    note(Step::cas(Word::Tail, false));
    (0..5).for_each(|_| note(Step::read(Word::Next, 0)));
    note(Step::read(Word::Next, 2));
    note(Step::write(Word::Locked, 0).of(1));
}

/// A round of a FIFO writer that waits for a writer and then for readers, and becomes a reader.
fn read_write_round() {
    let state = Mutex::new(());
    let sections = |made, outcomes: &[Outcome]| {
        let _call = call(made);
        outcomes.iter().for_each(|&outcome| state.lock().unwrap().note(outcome));
    };
    let waits = [Outcome::Waits; 5];
    let parts = [&waits[..], &[Outcome::Moved], &waits, &[Outcome::Entered]];
    sections(Call::WriteLock, &parts.concat());
    sections(Call::Downgrade, &[Outcome::Entered]);
    sections(Call::ReadUnlock, &[Outcome::Left]);
}

#[test]
fn the_longest_round_has_room() -> Result<(), Error> {
    let rows: [(Lock, usize, fn()); 3] = [
        (Lock::Ticket, 6 + 2 * 3, ticket_round),
        (Lock::Mcs, 15, mcs_round),
        (Lock::RwFifo, 11, read_write_round),
    ];
    let path = folder("room");
    for (lock, moves, round) in rows {
        for dropped in [0, 1] {
            let run = Run::builder(lock, 1).room(moves - dropped).open()?;
            run.threads(LIMIT, |_| round())?;
            run.save(&path)?;
            let (_, log) = numbered(&path, "thread-0.log");
            assert!(log.ends_with(&format!("\ndropped {dropped}\n")), "{log}");
        }
    }
    fs::remove_dir_all(&path).expect("the folder was made");
    Ok(())
}

/// Thread 0 polls for ever, and thread 1 ends. A run that hangs says so; one that is stopped after
/// its time does not, nor one whose log was full, since it might have gone on.
#[test]
fn a_saved_run_says_who_has_ended() -> Result<(), Error> {
    let poll = "read now_serving found 0\n";
    for (mode, room, limit, end) in [
        (Mode::Seed(1), 9, LIMIT, "has not ended"),
        (Mode::Seed(1), 0, LIMIT, "was stopped"),
        (Mode::Ordered, 9, Duration::from_secs(1), "was stopped"),
        (Mode::Free, 9, Duration::from_secs(1), "has not ended"),
        (Mode::Free, 0, Duration::from_secs(1), "was stopped"),
    ] {
        let poll = if room == 0 { "" } else { poll };
        let word = AtomicU8::new(0).noted(Word::NowServing);
        let path = folder("ends");
        let run = Run::builder(Lock::Ticket, 2).room(room).mode(mode.clone()).open()?;
        run.threads(limit, |log| while log.thread() == 0 && word.load(SeqCst) == 0 {})?;
        run.save(&path)?;
        let read = |name: &str| fs::read_to_string(path.join(name)).unwrap_or_default();
        let log = read("thread-0.log");
        assert!(log.ends_with(&format!("{poll}# thread 0 {end}\n")), "{mode:?}: {log}");
        assert!(read("thread-1.log").ends_with("dropped 0\n"), "{mode:?}");
        let ends = format!("{poll}# thread 0 {end}\n# thread 1 has ended\n");
        let trace = read("run.trace");
        assert_eq!(trace.ends_with(&ends), mode != Mode::Free, "{mode:?}: {trace}");
        fs::remove_dir_all(&path).expect("the folder was made");
    }
    Ok(())
}

#[test]
fn nothing_is_recorded_outside_of_a_run() {
    let word = AtomicU8::new(1).noted(Word::NextTicket);
    let _call = call(Call::Acquire);
    own_record(&word);
    note(Step::read(Word::NextTicket, 1));
    assert_eq!(word.fetch_add(1, SeqCst), 1);
    assert_eq!(word.peek(SeqCst), 2);
}

fn refuses<T>(result: Result<T, Error>, due: &str) {
    let said = result.map(drop).expect_err(due).to_string();
    assert_eq!(said, due);
}

#[test]
fn a_run_that_cannot_be_is_refused() {
    let open = |threads, bits| Run::builder(Lock::Ticket, threads).bits(bits).open();
    refuses(open(0, 8), "a run has 1 to 64 threads, not 0");
    refuses(open(65, 8), "a run has 1 to 64 threads, not 65");
    refuses(open(1, 1), "a counter has 2 to 64 bits, not 1");
    refuses(open(1, 65), "a counter has 2 to 64 bits, not 65");
    refuses(
        open(4, 2),
        "4 threads are too many for counters of 2 bits: there must be fewer threads than a \
         counter has values",
    );
    for (threads, bits) in [(3, 2), (1, 2), (1, 64), (63, 6), (64, 7), (64, 64)] {
        assert!(open(threads, bits).is_ok(), "{threads} {bits}");
    }
    assert!(open(64, 6).is_err());
    let room = usize::MAX;
    let due = format!("no memory for 2 logs of {room} moves each");
    refuses(Run::builder(Lock::Mcs, 2).room(room).open(), &due);
    let due = "there is no lock 'spin': the locks are ticket, mcs, rw-simple, rw-fifo";
    refuses("spin".parse::<Lock>(), due);
}

#[test]
fn a_thread_that_cannot_enter_is_refused() -> Result<(), Error> {
    let (first, second) = (Run::builder(Lock::Mcs, 1).open()?, Run::builder(Lock::Mcs, 1).open()?);
    refuses(first.enter(1), "there is no thread 1: the run has 1, counted from 0");
    let log = first.enter(0)?;
    let due = "this thread has a log already: drop that before it enters a run";
    refuses(second.enter(0), due);
    drop(log);
    let due = "thread 0 has its log already: open a run for each recording";
    refuses(first.enter(0), due);
    refuses(first.threads(LIMIT, |_| ()), due);
    refuses(second.save("/dev/null/logs"), "/dev/null/logs: Not a directory (os error 20)");
    Ok(())
}

/// An error of the system is the source of this crate's, and no other error has one.
#[test]
fn the_systems_error_is_the_source() -> Result<(), Error> {
    let run = Run::builder(Lock::Mcs, 1).open()?;
    let kept = Run::builder(Lock::Mcs, 1).kept_in("/dev/null/logs").open().map(drop);
    let read = Schedule::read("/dev/null/no.schedule").map(drop);
    let start = Err(Error::Start(std::io::Error::from_raw_os_error(20)));
    for result in [run.save("/dev/null/logs"), kept, read, start] {
        let error = result.expect_err("no folder is there");
        let source = error.source().expect("the system says why");
        assert_eq!(source.to_string(), "Not a directory (os error 20)");
    }
    assert!(run.enter(1).expect_err("there is no such thread").source().is_none());
    Ok(())
}

#[test]
fn a_run_whose_threads_do_not_come_is_stopped() -> Result<(), Error> {
    let run = Run::builder(Lock::Mcs, 2).open()?;
    let other = run.clone();
    let waits = std::thread::spawn(move || other.enter(0).map(drop));
    assert_eq!(run.wait(Duration::from_millis(50)), vec![0, 1]);
    let said = waits.join().expect("it does not panic").expect_err("it was stopped");
    assert_eq!(said.to_string(), "the run was stopped before all of its threads had come");
    Ok(())
}
