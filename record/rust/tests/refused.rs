//! What the system refuses at the last moment, and what a run that makes no progress comes to.
// SPDX-License-Identifier: Apache-2.0 OR MIT
#![cfg(feature = "record")]

use std::sync::atomic::Ordering::SeqCst;
use std::time::{Duration, Instant};

use lockreplay_record::{AtomicBool, Ending, Error, Lock, Mode, Run};

const LIMIT: Duration = Duration::from_secs(60);

/// A short log fits the buffer, so that only the last flush is refused.
#[cfg(target_os = "linux")]
#[test]
fn a_log_that_is_not_written_to_the_end_is_not_saved() -> Result<(), Error> {
    let folder = std::env::temp_dir().join(format!("lockreplay-refused-{}", std::process::id()));
    std::fs::create_dir_all(&folder).unwrap();
    std::os::unix::fs::symlink("/dev/full", folder.join("thread-0.log.part")).unwrap();
    let run = Run::builder(Lock::Mcs, 1).mode(Mode::Seed(1)).open()?;
    run.threads(LIMIT, |_| {})?;
    let said = run.save(&folder).expect_err("the device is full").to_string();
    assert!(said.contains("thread-0.log: No space left on device"), "{said}");
    assert_eq!(std::fs::read_dir(&folder).unwrap().count(), 0);
    std::fs::remove_dir(&folder).unwrap();
    Ok(())
}

/// A thread that polls without a note is given up long before the limit.
#[test]
fn operations_in_vain_are_counted() -> Result<(), Error> {
    type Poll = fn(&AtomicBool) -> bool;
    let polls: [Poll; 3] = [
        |flag| flag.load(SeqCst),
        |flag| flag.peek(SeqCst),
        |flag| flag.compare_exchange(true, true, SeqCst, SeqCst).is_ok(),
    ];
    for poll in polls {
        let (flag, begun) = (AtomicBool::new(false), Instant::now());
        let run = Run::builder(Lock::Mcs, 2).mode(Mode::Seed(1)).open()?;
        let ending = run.threads(LIMIT, |log| while log.thread() == 1 && !poll(&flag) {})?;
        assert_eq!(ending, Ending::Hangs(vec![1]));
        assert!(begun.elapsed() < LIMIT);
    }
    Ok(())
}
