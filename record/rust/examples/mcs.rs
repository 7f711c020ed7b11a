//! An MCS lock, its records reached by pointers.
//!
//! After Mellor-Crummey and Scott (ACM TOCS 9(1), 1991). Sequentially consistent, so that the logs
//! of free threads have an order on every machine.
// SPDX-License-Identifier: Apache-2.0 OR MIT

mod driver;

use std::process::ExitCode;
use std::ptr;
use std::sync::atomic::Ordering::SeqCst;
use std::thread;

use driver::Tested;
use lockreplay_record::{call, own_record, AtomicBool, AtomicPtr, Call, Lock, Word};

const MOST_THREADS: usize = 64;

/// A thread's place in the queue, on cache lines of its own.
#[repr(align(128))]
struct Record {
    next: AtomicPtr<Record>,
    locked: AtomicBool,
}

impl Record {
    fn new() -> Record {
        Record {
            next: AtomicPtr::new(ptr::null_mut()).noted(Word::Next),
            locked: AtomicBool::new(false).noted(Word::Locked),
        }
    }
}

struct McsLock {
    tail: AtomicPtr<Record>,
    records: Vec<Record>,
}

impl Default for McsLock {
    fn default() -> McsLock {
        McsLock {
            tail: AtomicPtr::new(ptr::null_mut()).noted(Word::Tail),
            records: (0..MOST_THREADS).map(|_| Record::new()).collect(),
        }
    }
}

impl McsLock {
    /// The record that a pointer of this lock is to, or nothing if it is nil.
    fn record(&self, pointer: *mut Record) -> Option<&Record> {
        // SAFETY: `tail` and `next` are private, and only `pointer_to` makes what is stored there:
        // pointers to `records`, which lives as long as the lock and is only ever borrowed shared.
        unsafe { pointer.as_ref() }
    }

    fn acquire(&self, thread: usize) {
        let _call = call(Call::Acquire);
        let own = &self.records[thread];
        own_record(own);
        own.next.store(ptr::null_mut(), SeqCst);
        let before = self.tail.swap(pointer_to(own), SeqCst);
        if let Some(before) = self.record(before) {
            own.locked.store(true, SeqCst);
            before.next.store(pointer_to(own), SeqCst);
            while own.locked.load(SeqCst) {
                thread::yield_now();
            }
        }
    }

    fn release(&self, thread: usize) {
        let _call = call(Call::Release);
        let own = &self.records[thread];
        let mut next = own.next.load(SeqCst);
        if next.is_null() {
            let nil = ptr::null_mut();
            if self.tail.compare_exchange(pointer_to(own), nil, SeqCst, SeqCst).is_ok() {
                return;
            }
            next = Self::linked(own);
        }
        if let Some(next) = self.record(next) {
            next.locked.store(false, SeqCst);
        }
    }

    /// Waits for the successor, which has swapped the tail, to link itself.
    fn linked(own: &Record) -> *mut Record {
        loop {
            let next = own.next.load(SeqCst);
            if !next.is_null() {
                return next;
            }
            thread::yield_now();
        }
    }
}

fn pointer_to(record: &Record) -> *mut Record {
    record as *const Record as *mut Record
}

impl Tested for McsLock {
    const LOCK: Lock = Lock::Mcs;
    const BITS: u32 = 64;

    fn make(&self, thread: usize, call: Call) {
        match call {
            Call::Acquire => self.acquire(thread),
            _ => self.release(thread),
        }
    }
}

fn main() -> ExitCode {
    driver::drive::<McsLock>()
}
