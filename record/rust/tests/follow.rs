//! Schedules that are followed: the moves of each turn, and where a lock leaves its schedule.
// SPDX-License-Identifier: Apache-2.0 OR MIT
#![cfg(feature = "record")]

mod ticket;

use std::sync::atomic::Ordering::SeqCst;
use std::time::Duration;
use std::{env, fs, process, thread};

use lockreplay_record::{
    call, note, operation, switch, AtomicBool, AtomicU8, Call, Condvar, Ending, Error, Lock, Log,
    Mode, Mutex, Outcome, Run, Schedule, Step, Word,
};
use ticket::TicketLock;

const LIMIT: Duration = Duration::from_secs(60);

/// Follows a schedule with counters of 8 bits: how the run ended, and its trace.
fn follow(text: &str, work: impl Fn(&Log) + Sync) -> Result<(Ending, String), Error> {
    let schedule: Schedule = text.parse()?;
    let setup = Run::builder(schedule.lock(), schedule.threads()).bits(8);
    let run = setup.mode(Mode::Follow(schedule)).open()?;
    Ok((run.threads(LIMIT, work)?, run.trace()?))
}

/// Makes each call that the schedule has.
fn make_calls(lock: &TicketLock, log: &Log) {
    while let Some(due) = log.next_call() {
        lock.make(due);
        switch();
    }
}

/// Where the run of a ticket lock by two threads leaves its schedule.
fn departure(lines: &str, work: impl Fn(&TicketLock, &Log) + Sync) -> Result<String, Error> {
    let lock = TicketLock::new();
    match follow(&format!("lock ticket threads 2\n{lines}"), |log| work(&lock, log))? {
        (Ending::Departed(departure), _) => Ok(departure.to_string()),
        (ending, _) => Ok(format!("{ending:?}")),
    }
}

const TAKEN: &str = "0 acquire\n0 add\n0 read\n";

/// Each line is a turn, and each of three equal polls is made and written.
#[test]
fn the_trace_has_the_moves_of_the_schedule() -> Result<(), Error> {
    let moves = "1 acquire\n1 add\n0 acquire\n1 read\n0 add\n0 read\n0 read\n0 read\n1 release\n\
                 1 read\n0 read\n1 write\n0 read\n0 release\n0 read\n0 write\n";
    let lock = TicketLock::new();
    let text = format!("# twice\n\nlock ticket threads 2\n# once\n{moves}");
    let (ending, trace) = follow(&text, |log| make_calls(&lock, log))?;
    assert_eq!(ending, Ending::Complete);
    let made = |line: &str| line.splitn(3, ' ').take(2).collect::<Vec<_>>().join(" ") + "\n";
    assert_eq!(trace.lines().skip(2).map(made).collect::<String>(), moves);
    // the trace itself is a schedule, and its run the same
    let lock = TicketLock::new();
    assert_eq!(follow(&trace, |log| make_calls(&lock, log))?.1, trace);
    Ok(())
}

#[test]
fn a_schedule_may_end_in_a_call() -> Result<(), Error> {
    let lock = TicketLock::new();
    let text = format!("lock ticket threads 3 bits 8\n{TAKEN}1 acquire\n1 add\n1 read\n");
    let (ending, trace) = follow(&text, |log| make_calls(&lock, log))?;
    assert_eq!(ending, Ending::Stopped(vec![1])); // 0 holds, and 2 has done nothing
    assert_eq!(trace.lines().last(), Some("1 read now_serving found 0"));
    Ok(())
}

/// After the last line a thread comes to its end, though it makes an operation between calls.
#[test]
fn an_operation_after_the_last_call_is_made() -> Result<(), Error> {
    let said = departure(TAKEN, |lock, log| {
        make_calls(lock, log);
        operation(|| lock.next_ticket.peek(SeqCst));
    })?;
    assert_eq!(said, "Complete");
    Ok(())
}

#[test]
fn another_move_ends_the_run() -> Result<(), Error> {
    let rows = [
        ("0 acquire\n0 read\n", "line 3 is '0 read', and thread 0 made 'add'"),
        ("0 acquire\n0 section\n", "line 3 is '0 section', and thread 0 made 'add'"),
        ("0 add\n", "line 2 is '0 add', and thread 0 has ended"),
        ("0 acquire\n0 add\n0 read\n0 read\n", "line 5 is '0 read', and thread 0 has ended"),
        ("1 acquire\n0 write\n", "line 3 is '0 write', and thread 0 has ended"),
    ];
    for (lines, due) in rows {
        assert_eq!(departure(lines, make_calls)?, due);
    }
    Ok(())
}

/// What was made is the last move of the run, and the thread stops before the next one.
#[test]
fn the_move_that_departs_is_saved() -> Result<(), Error> {
    let lock = TicketLock::new();
    let text = "lock ticket threads 2\n0 acquire\n1 acquire\n0 read\n1 add\n";
    let (ending, trace) = follow(text, |log| make_calls(&lock, log))?;
    let departure = match ending {
        Ending::Departed(departure) => departure,
        ending => panic!("{ending:?}"),
    };
    assert_eq!((departure.thread(), departure.line()), (0, Some(4)));
    let text = "lock ticket threads 2 bits 8\n0 acquire\n1 acquire\n\
                0 add next_ticket found 0 left 1\n";
    assert_eq!(trace.split_once('\n').map(|(_, after_number)| after_number), Some(text));
    assert_eq!(lock.next_ticket.peek(SeqCst), 1);
    Ok(())
}

#[test]
fn a_call_after_the_last_line_is_a_move() -> Result<(), Error> {
    let due = "thread 0 made 'release' after the last line";
    let said = departure(TAKEN, |lock, log| {
        if log.thread() == 0 {
            lock.make(Call::Acquire);
            lock.make(Call::Release);
        }
    })?;
    assert_eq!(said, due);
    Ok(())
}

/// A thread that loops without a move, or that blocks, does not keep its turn for ever.
#[test]
fn a_thread_that_makes_no_move_is_stopped() -> Result<(), Error> {
    let due = "line 5 is '1 acquire', and thread 1 makes no move";
    let (lines, open) = (format!("{TAKEN}1 acquire\n"), AtomicBool::new(false));
    let said = departure(&lines, |lock, log| match log.thread() {
        0 => make_calls(lock, log),
        _ => while !open.load(SeqCst) {},
    })?;
    assert_eq!(said, due);
    let schedule: Schedule = format!("lock ticket threads 2\n{lines}").parse()?;
    let (lock, setup) = (TicketLock::new(), Run::builder(Lock::Ticket, 2).bits(8));
    let run = setup.mode(Mode::Follow(schedule)).open()?;
    let ending = run.threads(Duration::from_secs(2), |log| match log.thread() {
        0 => make_calls(&lock, log),
        _ => thread::sleep(Duration::from_secs(4)),
    })?;
    assert!(matches!(ending, Ending::Departed(said) if said.to_string() == due));
    Ok(())
}

/// Both steps are made by one operation, so nobody comes between them.
#[test]
fn an_operation_of_two_steps_is_not_parted() -> Result<(), Error> {
    let joined = |lock: &TicketLock, log: &Log| {
        while let Some(due) = log.next_call() {
            let _call = call(due);
            operation(|| {
                lock.next_ticket.fetch_add(1, SeqCst);
                note(Step::read(Word::NowServing, 0));
            });
        }
    };
    assert_eq!(departure(TAKEN, joined)?, "Complete");
    let parted = "0 acquire\n0 add\n1 acquire\n0 read\n";
    assert_eq!(departure(parted, joined)?, "line 4 is '1 acquire', and thread 0 made 'read'");
    Ok(())
}

/// A turn ends when the monitor was left, though an atomic is looked at in it after the note. A
/// thread that waits looks again when the schedule says so, and nobody has to notify it.
#[test]
fn a_section_is_a_turn() -> Result<(), Error> {
    let (state, changed, other) = (Mutex::new(false), Condvar::new(), AtomicU8::new(0));
    let make = |due: Call| {
        let _call = call(due);
        let mut writer = state.lock().unwrap();
        while due == Call::WriteLock && *writer {
            writer.note(Outcome::Waits);
            other.load(SeqCst);
            writer = changed.wait(writer).unwrap();
        }
        *writer = due == Call::WriteLock;
        writer.note(if *writer { Outcome::Entered } else { Outcome::Left });
        other.load(SeqCst);
    };
    let text = "lock rw-simple threads 2 bits 8\n0 wlock\n0 section\n1 wlock\n1 section\n\
                1 section\n0 wunlock\n1 section\n0 section\n1 section\n";
    let (ending, trace) = follow(text, |log| {
        while let Some(due) = log.next_call() {
            make(due);
        }
    })?;
    assert_eq!(ending, Ending::Complete);
    let outcomes: Vec<&str> =
        trace.lines().skip(2).filter_map(|line| line.split(' ').nth(3)).collect();
    assert_eq!(outcomes, ["entered", "waits", "waits", "waits", "left", "entered"]);
    Ok(())
}

/// A thread whose last section was its schedule's last line leaves the monitor, whatever it does
/// there.
#[test]
fn a_monitor_is_left_after_the_last_line() -> Result<(), Error> {
    let state = Mutex::new(());
    let text = "lock rw-simple threads 2 bits 8\n0 rlock\n0 section\n1 rlock\n1 section\n";
    let (ending, _) = follow(text, |log| {
        while let Some(due) = log.next_call() {
            let _call = call(due);
            let mut held = state.lock().unwrap();
            held.note(Outcome::Entered);
            operation(|| ());
        }
    })?;
    assert_eq!(ending, Ending::Complete);
    Ok(())
}

#[test]
fn a_schedule_says_whose_it_is() -> Result<(), Error> {
    for (bits, due) in [("", None), (" bits 8", Some(8))] {
        let text = format!("# of two\nlock ticket threads 2{bits}\n\n0 acquire\n#\n0 add\n");
        let it: Schedule = text.parse()?;
        assert_eq!((it.lock(), it.threads(), it.bits(), it.moves()), (Lock::Ticket, 2, due, 2));
    }
    Ok(())
}

#[test]
fn a_comment_may_hold_any_bytes() -> Result<(), Error> {
    let path = env::temp_dir().join(format!("lockreplay-bytes-{}.schedule", process::id()));
    fs::write(&path, b"# \xFF\x00\nlock mcs threads 2\n1 acquire\n").expect("there is room");
    let read = Schedule::read(&path);
    fs::remove_file(&path).expect("it was written");
    assert_eq!(read?, "#\nlock mcs threads 2\n1 acquire\n".parse()?);
    Ok(())
}

#[test]
fn a_text_that_is_no_schedule_is_refused() {
    let rows = [
        ("", 1),
        ("# no header\n", 1),
        ("0 acquire\n", 1),
        ("lock clh threads 2\n", 1),
        ("lock mcs threads 0\n", 1),
        ("lock ticket threads 4 bits 2\n", 1),
        ("lock mcs threads 65\n", 1),
        ("lock mcs threads 2 bits\n", 1),
        ("lock mcs threads 2 bits x\n", 1),
        ("lock mcs threads 2 bits 65\n", 1),
        ("lock mcs threads 2 bits 8 or 9\n", 1),
        ("lock mcs threads 2 or 3\n", 1),
        ("lock mcs threads two\n", 1),
        ("lock mcs threads 2\nlock mcs threads 2\n", 2),
        ("lock mcs threads 2\n2 acquire\n", 2),
        ("\nlock mcs threads 2\n0 acquire\n0 aquire\n", 4),
        ("lock mcs threads 2\n0\n", 2),
    ];
    for (text, line) in rows {
        let said = text.parse::<Schedule>().expect_err(text).to_string();
        assert_eq!(said, format!("line {line} is no line of a schedule"), "{text}");
    }
    let said = Schedule::read("/dev/null/no.schedule").expect_err("it is no file").to_string();
    assert_eq!(said, "/dev/null/no.schedule: Not a directory (os error 20)");
}

#[test]
fn a_schedule_of_another_run_is_refused() -> Result<(), Error> {
    let open = |setup: lockreplay_record::RunBuilder, text: &str| -> Result<String, Error> {
        let opened = setup.mode(Mode::Follow(text.parse()?)).open();
        Ok(opened.map_or_else(|error| error.to_string(), |_| String::new()))
    };
    let setup = || Run::builder(Lock::Mcs, 2).bits(8);
    let due = "the schedule is not of this run: lock mcs threads 2 bits 8";
    assert_eq!(open(setup(), "lock ticket threads 2\n")?, due);
    assert_eq!(open(setup(), "lock mcs threads 3\n")?, due);
    assert_eq!(open(setup(), "lock mcs threads 2 bits 9\n")?, due);
    assert_eq!(open(setup(), "lock mcs threads 2 bits 8\n")?, "");
    assert_eq!(open(setup(), "lock mcs threads 2\n")?, "");
    Ok(())
}
