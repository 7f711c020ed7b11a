//! How often noise holds a thread up, and for how long. The calls of the system are replaced.
// SPDX-License-Identifier: Apache-2.0 OR MIT
#![cfg(all(feature = "record", target_os = "linux"))]

use std::cell::{Cell, RefCell};
use std::os::raw::{c_int, c_long, c_void};
use std::sync::atomic::Ordering::SeqCst;
use std::sync::Mutex;
use std::time::Duration;

use lockreplay_record::{AtomicU8, Error, Lock, Mode, Run};

const LIMIT: Duration = Duration::from_secs(60);
const COUNT: usize = 8000;
/// A delay is one of three kinds, and each operation in eight has one.
const MEAN: f64 = COUNT as f64 / 24.0;

thread_local! {
    /// The number of the operation that the thread makes.
    static NUMBER: Cell<usize> = Cell::new(0);
    /// The operations at which it yielded, and those at which it slept, with the nanoseconds.
    static YIELDS: RefCell<Vec<usize>> = RefCell::new(Vec::new());
    static SLEEPS: RefCell<Vec<(usize, c_long)>> = RefCell::new(Vec::new());
}

#[no_mangle]
pub extern "C" fn sched_yield() -> c_int {
    YIELDS.with(|yields| yields.borrow_mut().push(NUMBER.with(Cell::get)));
    0
}

#[repr(C)]
pub struct Time {
    seconds: c_long,
    nanoseconds: c_long,
}

#[no_mangle]
pub extern "C" fn nanosleep(time: &Time, _left: *mut c_void) -> c_int {
    let nanoseconds = time.seconds * 1_000_000_000 + time.nanoseconds;
    SLEEPS.with(|sleeps| sleeps.borrow_mut().push((NUMBER.with(Cell::get), nanoseconds)));
    0
}

/// Newer versions of the standard library sleep by this.
#[no_mangle]
pub extern "C" fn clock_nanosleep(_: c_int, _: c_int, time: &Time, left: *mut c_void) -> c_int {
    nanosleep(time, left)
}

fn is_about(count: usize) -> bool {
    (count as f64 - MEAN).abs() < 6.0 * MEAN.sqrt()
}

/// The bounds are six standard deviations from the mean. Each thread is held up at others.
#[test]
fn each_thread_has_a_noise_of_its_own() -> Result<(), Error> {
    let all = Mutex::new(Vec::new());
    let run = Run::builder(Lock::Ticket, 2).mode(Mode::Noise(1)).open()?;
    run.threads(LIMIT, |_| {
        let word = AtomicU8::new(0);
        for number in 0..COUNT {
            NUMBER.with(|it| it.set(number));
            word.load(SeqCst);
        }
        let (yields, sleeps) = (YIELDS.with(RefCell::take), SLEEPS.with(RefCell::take));
        let (slept, times): (Vec<_>, Vec<_>) = sleeps.into_iter().unzip();
        assert!(is_about(yields.len()) && is_about(slept.len()), "{yields:?}, {slept:?}");
        assert!(times.iter().all(|time| (0..100_000).contains(time)), "{times:?}");
        assert!(times.iter().any(|&time| time > 90_000), "{times:?}");
        all.lock().unwrap().push([yields, slept].concat());
    })?;
    let all = all.into_inner().unwrap();
    let both = all[0].iter().filter(|it| all[1].contains(it)).count();
    assert!(both * 2 < all[0].len(), "{both}");
    Ok(())
}
