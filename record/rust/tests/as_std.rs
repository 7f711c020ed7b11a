//! The atomics and the monitor are used as those of the standard library: the same text, compiled
//! with the types of both, does the same.
// SPDX-License-Identifier: Apache-2.0 OR MIT

macro_rules! as_std {
    ($name:ident, $atomics:path, $monitor:path) => {
        mod $name {
            use std::panic::{catch_unwind, AssertUnwindSafe};
            use std::sync::atomic::Ordering::{Acquire, Release, SeqCst};
            use std::sync::{PoisonError, TryLockError};
            use std::thread;

            use $atomics as atomics;
            use $monitor as monitor;

            use atomics::{AtomicBool, AtomicI16, AtomicI32, AtomicI64, AtomicI8, AtomicIsize};
            use atomics::{AtomicPtr, AtomicU16, AtomicU32, AtomicU64, AtomicU8, AtomicUsize};
            use monitor::{Condvar, Mutex};

            macro_rules! numbers {
                ($test:ident, $atomic:ident, $number:ty) => {
                    #[test]
                    fn $test() {
                        let mut word = $atomic::new(6);
                        assert_eq!(word.load(SeqCst), 6);
                        word.store(7, SeqCst);
                        assert_eq!(word.swap(8, SeqCst), 7);
                        assert_eq!(word.compare_exchange(8, 9, SeqCst, SeqCst), Ok(8));
                        assert_eq!(word.compare_exchange(8, 1, SeqCst, SeqCst), Err(9));
                        assert_eq!(word.compare_exchange_weak(8, 1, SeqCst, SeqCst), Err(9));
                        assert_eq!(word.fetch_add(<$number>::MAX, SeqCst), 9);
                        let sum = <$number>::MAX.wrapping_add(9);
                        assert_eq!(word.fetch_sub(<$number>::MAX, SeqCst), sum);
                        assert_eq!(word.fetch_and(12, SeqCst), 9);
                        assert_eq!(word.fetch_or(3, SeqCst), 8);
                        assert_eq!(word.fetch_xor(1, SeqCst), 11);
                        assert_eq!(word.fetch_max(12, SeqCst), 10);
                        assert_eq!(word.fetch_min(5, SeqCst), 12);
                        assert_eq!(word.fetch_nand(4, SeqCst), 5);
                        assert_eq!(word.load(SeqCst), !4);
                        assert_eq!(word.fetch_update(SeqCst, SeqCst, |_| None), Err(!4));
                        assert_eq!(word.fetch_update(SeqCst, SeqCst, |it| Some(!it)), Ok(!4));
                        *word.get_mut() += 1;
                        assert_eq!(format!("{word:?}"), "5");
                        assert_eq!(word.into_inner(), 5);
                        assert_eq!($atomic::default().into_inner(), 0);
                        assert_eq!($atomic::from(3).into_inner(), 3);
                    }
                };
            }
            numbers!(of_u8, AtomicU8, u8);
            numbers!(of_u16, AtomicU16, u16);
            numbers!(of_u32, AtomicU32, u32);
            numbers!(of_u64, AtomicU64, u64);
            numbers!(of_usize, AtomicUsize, usize);
            numbers!(of_i8, AtomicI8, i8);
            numbers!(of_i16, AtomicI16, i16);
            numbers!(of_i32, AtomicI32, i32);
            numbers!(of_i64, AtomicI64, i64);
            numbers!(of_isize, AtomicIsize, isize);

            #[test]
            fn of_bool() {
                let mut word = AtomicBool::default();
                assert!(!word.swap(true, SeqCst));
                assert!(word.fetch_and(false, SeqCst));
                assert!(!word.fetch_or(true, SeqCst));
                assert!(word.fetch_xor(true, SeqCst));
                assert!(!word.fetch_nand(true, SeqCst));
                *word.get_mut() = !word.load(SeqCst);
                assert!(!word.into_inner());
                assert!(AtomicBool::from(true).into_inner());
            }

            #[test]
            fn of_pointers() {
                let mut number = 4;
                let pointer: *mut i32 = &mut number;
                let mut word = AtomicPtr::default();
                assert!(word.swap(pointer, SeqCst).is_null());
                assert_eq!(*word.get_mut(), pointer);
                assert_eq!(AtomicPtr::from(pointer).into_inner(), word.into_inner());
            }

            /// A load does not release, nor does a store acquire. The compiler refuses such an
            /// order if it sees it.
            #[test]
            fn of_wrong_orders() {
                let word = AtomicU8::new(1);
                for (acquire, release, is_wrong) in
                    [(Acquire, Release, true), (SeqCst, SeqCst, false)]
                {
                    let makes: [&dyn Fn(); 5] = [
                        &|| assert_eq!(word.load(release), 1),
                        &|| word.store(1, acquire),
                        &|| assert_eq!(word.compare_exchange(2, 3, SeqCst, release), Err(1)),
                        &|| assert_eq!(word.compare_exchange_weak(2, 3, SeqCst, release), Err(1)),
                        &|| assert_eq!(word.fetch_update(SeqCst, release, |_| None), Err(1)),
                    ];
                    for make in makes {
                        assert_eq!(catch_unwind(AssertUnwindSafe(make)).is_err(), is_wrong);
                    }
                }
            }

            #[test]
            fn of_a_mutex() {
                let mut mutex = Mutex::new(1);
                *mutex.lock().unwrap() += 1;
                let held = mutex.lock().unwrap();
                assert!(matches!(mutex.try_lock(), Err(TryLockError::WouldBlock)));
                assert!(!mutex.is_poisoned());
                assert_eq!(format!("{held:?}"), "2");
                drop(held);
                assert_eq!(*mutex.try_lock().unwrap(), 2);
                *mutex.get_mut().unwrap() = 5;
                assert!(!mutex.is_poisoned());
                assert_eq!(mutex.into_inner().unwrap(), 5);
                assert_eq!(Mutex::from(3).into_inner().unwrap(), 3);
                assert_eq!(Mutex::<u8>::default().into_inner().unwrap(), 0);
            }

            #[test]
            fn of_a_panic() {
                let mut mutex = Mutex::new(1);
                let panicked = thread::scope(|scope| {
                    let holds = || {
                        let _held = mutex.lock().unwrap();
                        panic!("a panic of this test");
                    };
                    scope.spawn(holds).join().is_err()
                });
                assert!(panicked && mutex.is_poisoned());
                assert!(matches!(mutex.try_lock(), Err(TryLockError::Poisoned(_))));
                assert_eq!(*mutex.lock().unwrap_or_else(PoisonError::into_inner), 1);
                assert_eq!(*mutex.get_mut().unwrap_err().into_inner(), 1);
                assert_eq!(mutex.into_inner().unwrap_err().into_inner(), 1);
            }

            /// The thread for which another one waits panics in the monitor.
            #[test]
            fn of_a_panic_during_a_wait() {
                let (open, changed) = (Mutex::new(false), Condvar::new());
                let panics = || {
                    let mut held = open.lock().unwrap();
                    *held = true;
                    changed.notify_all();
                    panic!("a panic of this test");
                };
                thread::scope(|scope| {
                    let mut held = open.lock().unwrap();
                    let panicking = scope.spawn(panics);
                    let poisoned = loop {
                        match changed.wait(held) {
                            Ok(again) if !*again => held = again,
                            other => break other.unwrap_err(),
                        }
                    };
                    assert!(*poisoned.into_inner() && panicking.join().is_err());
                });
            }

            #[test]
            fn of_a_condition() {
                let (count, changed) = (Mutex::new(0), Condvar::new());
                thread::scope(|scope| {
                    scope.spawn(|| {
                        *count.lock().unwrap() = 1;
                        changed.notify_all();
                    });
                    let held = changed.wait_while(count.lock().unwrap(), |it| *it == 0).unwrap();
                    assert_eq!(*held, 1);
                    changed.notify_one();
                });
            }

            /// A thread that waits for a mutex or a condition takes no time of a processor.
            #[test]
            #[cfg(target_os = "linux")]
            fn of_a_wait() {
                let (open, changed) = (Mutex::new(false), Condvar::new());
                let held = open.lock().unwrap();
                thread::scope(|scope| {
                    let waits = || {
                        let mut held = open.lock().unwrap();
                        while !*held {
                            held = changed.wait(held).unwrap();
                        }
                        crate::time_of_a_processor()
                    };
                    let waiter = scope.spawn(waits);
                    thread::sleep(crate::PAUSE);
                    drop(held);
                    thread::sleep(crate::PAUSE);
                    *open.lock().unwrap() = true;
                    changed.notify_one();
                    assert!(waiter.join().unwrap() < crate::PAUSE / 4);
                });
            }
        }
    };
}

#[cfg(target_os = "linux")]
const PAUSE: std::time::Duration = std::time::Duration::from_millis(400);

/// What the calling thread has had until now: the system counts it in nanoseconds.
#[cfg(target_os = "linux")]
fn time_of_a_processor() -> std::time::Duration {
    let text = std::fs::read_to_string("/proc/thread-self/schedstat").unwrap();
    std::time::Duration::from_nanos(text.split(' ').next().unwrap().parse().unwrap())
}

as_std!(of_the_standard_library, std::sync::atomic, std::sync);
as_std!(of_this_crate, lockreplay_record, lockreplay_record);
