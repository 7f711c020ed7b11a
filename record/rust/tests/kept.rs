//! Logs that a run writes into a folder while it goes on.
// SPDX-License-Identifier: Apache-2.0 OR MIT
#![cfg(feature = "record")]

mod ticket;

use std::fs;
use std::path::{Path, PathBuf};
use std::sync::atomic::Ordering::SeqCst;
use std::sync::Barrier;
use std::time::Duration;

use lockreplay_record::{Call, Ending, Error, Lock, Mode, Run};
use ticket::TicketLock;

const LIMIT: Duration = Duration::from_secs(60);
const THREADS: usize = 2;

/// A folder of its own for a test.
fn folder(name: &str) -> PathBuf {
    let path = std::env::temp_dir().join(format!("lockreplay-{name}-{}", std::process::id()));
    let _ = fs::remove_dir_all(&path);
    path
}

/// The logs in a folder.
fn logs(folder: &Path) -> Vec<String> {
    let log = |thread| fs::read_to_string(folder.join(format!("thread-{thread}.log")));
    (0..THREADS).map(|thread| log(thread).expect("it was kept")).collect()
}

/// A run of a ticket lock, with its logs in this folder.
fn kept_in(folder: &Path) -> Result<Run, Error> {
    Run::builder(Lock::Ticket, THREADS).bits(8).kept_in(folder).open()
}

/// Each log grows by several pieces, and lines lie across their ends.
#[test]
fn kept_logs_are_those_that_are_saved() -> Result<(), Error> {
    let (kept, saved) = (folder("kept"), folder("saved"));
    let (run, lock) = (kept_in(&kept)?, TicketLock::new());
    let begun = logs(&kept);
    let ending = run.threads(LIMIT, |_log| {
        for _ in 0..3000 {
            lock.make(Call::Acquire);
            lock.make(Call::Release);
        }
    })?;
    assert_eq!(ending, Ending::Complete);
    run.save(&saved)?;
    assert_eq!(logs(&kept), logs(&saved));
    for (log, head) in logs(&kept).iter().zip(begun) {
        assert!(log.len() > 3 << 16, "{}", log.len());
        assert!(log.starts_with(head.trim_end_matches('#')));
    }
    fs::remove_dir_all(kept).and_then(|()| fs::remove_dir_all(saved)).expect("nobody uses them");
    Ok(())
}

/// A thread that was stopped has left its log without a comment in place of its next lines.
#[test]
fn a_stopped_thread_leaves_its_lines() -> Result<(), Error> {
    let kept = folder("stopped");
    let (run, lock) = (kept_in(&kept)?, TicketLock::new());
    let ending = run.threads(Duration::from_secs(2), |_log| lock.make(Call::Acquire))?;
    assert!(matches!(ending, Ending::Stopped(missing) if missing.len() == 1));
    let waited = "acquire\nadd next_ticket found 1 left 2\nread now_serving found 0\n\
                  read now_serving found 0\n";
    let [first, second] = [0, 1].map(|thread| logs(&kept).remove(thread));
    assert!(first.ends_with(waited) != second.ends_with(waited), "{first}{second}");
    fs::remove_dir_all(kept).expect("nobody uses it");
    Ok(())
}

/// A run that is saved where its logs are kept has new files there, and threads that still run
/// write into their old ones.
#[test]
fn a_run_may_be_saved_where_it_is_kept() -> Result<(), Error> {
    let kept = folder("both");
    let (run, lock) = (kept_in(&kept)?, TicketLock::new());
    let saves = Barrier::new(THREADS);
    run.threads(LIMIT, |_log| {
        if saves.wait().is_leader() {
            run.save(&kept).expect("the folder is there");
        }
        saves.wait();
        for _ in 0..3000 {
            lock.make(Call::Acquire);
            lock.make(Call::Release);
        }
    })?;
    for log in logs(&kept) {
        assert!(log.lines().count() < 5 && !log.contains("dropped"), "{log}");
    }
    run.save(&kept)?;
    assert!(logs(&kept).iter().all(|log| log.ends_with("\ndropped 0\n")));
    fs::remove_dir_all(kept).expect("nobody uses it");
    Ok(())
}

/// Nobody knows the moves of a thread that still has its log.
#[test]
fn a_thread_that_still_has_its_log_is_named() -> Result<(), Error> {
    let saved = folder("early");
    let run = Run::builder(Lock::Ticket, 1).bits(8).mode(Mode::Ordered).open()?;
    let texts = || -> Result<[String; 2], Error> {
        run.save(&saved)?;
        let text = |name| fs::read_to_string(saved.join(name)).expect("it was saved");
        let texts = ["thread-0.log", "run.trace"].map(text);
        Ok(texts.map(|text| text.split_once('\n').expect("it has lines").1.to_owned()))
    };
    let log = run.enter(0)?;
    TicketLock::new().next_ticket.fetch_add(1, SeqCst);
    let head = "lock ticket threads 1 bits 8";
    let missing = "# thread 0 still has its log, so its moves are missing here\n";
    assert_eq!(texts()?, [" thread 0", ""].map(|of| format!("{head}{of}\n{missing}")));
    drop(log);
    let [made, ended] = ["add next_ticket found 0 left 1\n", "# thread 0 has ended\n"];
    let log = format!("{head} thread 0\n{made}dropped 0\n");
    assert_eq!(texts()?, [log, format!("{head}\n0 {made}{ended}")]);
    fs::remove_dir_all(saved).expect("nobody uses it");
    Ok(())
}

/// No file can be made there, and the error names the first one.
#[test]
#[cfg(target_os = "linux")]
fn a_file_that_cannot_be_made_is_named() -> Result<(), Error> {
    let saved = Run::builder(Lock::Mcs, 1).open()?.save("/proc/self");
    let kept = kept_in(Path::new("/proc/self")).map(drop);
    for result in [saved, kept] {
        let said = result.expect_err("no file can be made there").to_string();
        assert_eq!(said, "/proc/self/thread-0.log: No such file or directory (os error 2)");
    }
    Ok(())
}
