//! A ticket lock with counters of 8 bits, for more than one test.
// SPDX-License-Identifier: Apache-2.0 OR MIT

use std::sync::atomic::Ordering::SeqCst;
use std::thread;

use lockreplay_record::{call, AtomicU8, Call, Word};

pub struct TicketLock {
    pub next_ticket: AtomicU8,
    pub now_serving: AtomicU8,
}

impl TicketLock {
    pub fn new() -> TicketLock {
        TicketLock {
            next_ticket: AtomicU8::new(0).noted(Word::NextTicket),
            now_serving: AtomicU8::new(0).noted(Word::NowServing),
        }
    }

    pub fn make(&self, due: Call) {
        let _call = call(due);
        if due == Call::Acquire {
            let ticket = self.next_ticket.fetch_add(1, SeqCst);
            while self.now_serving.load(SeqCst) != ticket {
                thread::yield_now();
            }
        } else {
            let served = self.now_serving.load(SeqCst);
            self.now_serving.store(served.wrapping_add(1), SeqCst);
        }
    }
}
