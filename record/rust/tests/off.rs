//! Without the feature `record` the types are those of the standard library in all but name.
// SPDX-License-Identifier: Apache-2.0 OR MIT
#![cfg(not(feature = "record"))]

use std::mem::size_of;
use std::sync::atomic::{self, Ordering::SeqCst};

use lockreplay_record::{
    call, note, operation, own_record, switch, AtomicBool, AtomicPtr, AtomicU64, AtomicU8, Call,
    Condvar, InCall, Mutex, Outcome, Step, Word,
};

#[test]
fn nothing_takes_room() {
    assert_eq!(size_of::<AtomicU8>(), size_of::<atomic::AtomicU8>());
    assert_eq!(size_of::<AtomicU64>(), size_of::<atomic::AtomicU64>());
    assert_eq!(size_of::<AtomicBool>(), size_of::<atomic::AtomicBool>());
    assert_eq!(size_of::<AtomicPtr<u8>>(), size_of::<atomic::AtomicPtr<u8>>());
    assert_eq!(size_of::<Mutex<u64>>(), size_of::<std::sync::Mutex<u64>>());
    assert_eq!(size_of::<Condvar>(), size_of::<std::sync::Condvar>());
    assert_eq!(size_of::<InCall>(), 0);
}

#[test]
fn operations_are_made() {
    let word = AtomicU8::new(254).noted(Word::NextTicket);
    let _call = call(Call::Acquire);
    own_record(&word);
    note(Step::read(Word::NextTicket, 254));
    switch();
    assert_eq!(word.fetch_add(3, SeqCst), 254);
    assert_eq!(word.fetch_sub(1, SeqCst), 1);
    assert_eq!(word.swap(7, SeqCst), 0);
    assert_eq!(word.compare_exchange(7, 8, SeqCst, SeqCst), Ok(7));
    assert_eq!(word.compare_exchange(7, 9, SeqCst, SeqCst), Err(8));
    operation(|| word.store(9, SeqCst));
    assert_eq!((word.load(SeqCst), word.peek(SeqCst)), (9, 9));
    let state = Mutex::new(1);
    state.lock().unwrap().note(Outcome::Entered);
    assert_eq!(*state.lock().unwrap(), 1);
}
