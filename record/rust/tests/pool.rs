//! An MCS lock whose records come from a pool, so that threads have them one after another.
// SPDX-License-Identifier: Apache-2.0 OR MIT
#![cfg(feature = "check")]

use std::ptr;
use std::sync::atomic::Ordering::SeqCst;
use std::sync::Mutex;
use std::time::Duration;

use lockreplay_record::{
    call, explore, own_record, AtomicBool, AtomicPtr, Call, Ending, Error, Lock, Mode, Run, Word,
};

struct Record {
    next: AtomicPtr<Record>,
    locked: AtomicBool,
}

impl Record {
    /// A record that lives as long as the process, so no pointer to it is ever wrong.
    fn new() -> &'static Record {
        Box::leak(Box::new(Record {
            next: AtomicPtr::new(ptr::null_mut()).noted(Word::Next),
            locked: AtomicBool::new(false).noted(Word::Locked),
        }))
    }

    fn pointer(&self) -> *mut Record {
        self as *const Record as *mut Record
    }
}

struct McsLock {
    tail: AtomicPtr<Record>,
    /// By turns no thread waits for it: no turn ends while a thread has it.
    pool: Mutex<Vec<&'static Record>>,
}

impl McsLock {
    fn new() -> McsLock {
        let tail = AtomicPtr::new(ptr::null_mut()).noted(Word::Tail);
        McsLock { tail, pool: Mutex::new(Vec::new()) }
    }

    fn give_back(&self, record: &'static Record) {
        self.pool.lock().unwrap().push(record);
    }

    fn acquire(&self) -> &'static Record {
        let _call = call(Call::Acquire);
        let own = self.pool.lock().unwrap().pop().unwrap_or_else(Record::new);
        own_record(own);
        own.next.store(ptr::null_mut(), SeqCst);
        let before = self.tail.swap(own.pointer(), SeqCst);
        // SAFETY: only pointers to records are stored here, which live for ever.
        if let Some(before) = unsafe { before.as_ref() } {
            own.locked.store(true, SeqCst);
            before.next.store(own.pointer(), SeqCst);
            while own.locked.load(SeqCst) {
                std::hint::spin_loop();
            }
        }
        own
    }

    /// The next thread takes the record from the pool while this one still grants the lock.
    fn release(&self, own: &'static Record) {
        let _call = call(Call::Release);
        let mut next = own.next.load(SeqCst);
        if next.is_null() {
            let nil = ptr::null_mut();
            if self.tail.compare_exchange(own.pointer(), nil, SeqCst, SeqCst).is_ok() {
                return self.give_back(own);
            }
        }
        while next.is_null() {
            next = own.next.load(SeqCst);
        }
        self.give_back(own);
        // SAFETY: as above.
        if let Some(next) = unsafe { next.as_ref() } {
            next.locked.store(false, SeqCst);
        }
    }

    fn round(&self) {
        let own = self.acquire();
        self.release(own);
    }
}

/// The second thread has the first one's record when the third one finds it in the queue.
#[test]
fn a_record_is_its_last_owners_in_all_runs() {
    let runs = explore(Run::builder(Lock::Mcs, 3), 1, McsLock::new, |lock, _thread| lock.round());
    assert!(runs > 6, "{runs}"); // more than the orders of threads that do not meet
}

#[test]
fn a_record_is_its_last_owners_by_seeds() -> Result<(), Error> {
    for seed in 0..20 {
        let (run, lock) =
            (Run::builder(Lock::Mcs, 3).mode(Mode::Seed(seed)).open()?, McsLock::new());
        let ending =
            run.threads(Duration::from_secs(60), |_| (0..20).for_each(|_| lock.round()))?;
        assert_eq!(ending, Ending::Complete);
        run.check()?;
    }
    Ok(())
}
