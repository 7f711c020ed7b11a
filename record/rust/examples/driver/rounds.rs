//! What the threads of an example do: rounds, in which each takes the lock and gives it back.
// SPDX-License-Identifier: Apache-2.0 OR MIT

use std::thread;

use lockreplay_record::{switch, Call, Lock};

use super::Tested;

/// A thread's rounds. Threads are real if they run side by side.
pub fn of_thread<L: Tested>(lock: &L, thread: usize, rounds: usize, is_real: bool) {
    for round in 0..rounds {
        if let Some((first, others)) = calls_of(L::LOCK, thread, round).split_first() {
            lock.make(thread, *first);
            others.iter().for_each(|&call| {
                inside(thread, round, is_real);
                lock.make(thread, call);
            });
        }
    }
}

/// The calls of a round. With a read-write lock a thread writes in one round of three, and makes a
/// reading of every fourth writing before it gives that back; else it reads.
fn calls_of(lock: Lock, thread: usize, round: usize) -> &'static [Call] {
    match lock {
        Lock::Ticket | Lock::Mcs => &[Call::Acquire, Call::Release],
        _ if (round + thread) % 3 != 2 => &[Call::ReadLock, Call::ReadUnlock],
        _ if round / 3 % 4 == 3 => &[Call::WriteLock, Call::Downgrade, Call::ReadUnlock],
        _ => &[Call::WriteLock, Call::WriteUnlock],
    }
}

/// What a thread does while it has the lock: nothing, but that others get their turns meanwhile. A
/// real one stays long in its first round, since the others may not have been woken yet.
fn inside(thread: usize, round: usize, is_real: bool) {
    if is_real && round == 0 {
        (0..5000).for_each(|_| thread::yield_now());
    }
    if (round * 7 + thread) % 3 == 0 {
        thread::yield_now();
    }
    switch();
}
