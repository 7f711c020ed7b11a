//! A ticket lock whose counters have 8 bits, so that they wrap around every 256 tickets.
//!
//! After Mellor-Crummey and Scott (ACM TOCS 9(1), 1991). Sequentially consistent, so that the logs
//! of free threads have an order on every machine.
// SPDX-License-Identifier: Apache-2.0 OR MIT

mod driver;

use std::process::ExitCode;
use std::sync::atomic::Ordering::SeqCst;
use std::thread;

use driver::Tested;
use lockreplay_record::{call, AtomicU8, Call, Lock, Word};

struct TicketLock {
    next_ticket: AtomicU8,
    now_serving: AtomicU8,
}

impl Default for TicketLock {
    fn default() -> TicketLock {
        TicketLock {
            next_ticket: AtomicU8::new(0).noted(Word::NextTicket),
            now_serving: AtomicU8::new(0).noted(Word::NowServing),
        }
    }
}

impl TicketLock {
    fn acquire(&self) {
        let _call = call(Call::Acquire);
        let ticket = self.next_ticket.fetch_add(1, SeqCst);
        while self.now_serving.load(SeqCst) != ticket {
            thread::yield_now();
        }
    }

    fn release(&self) {
        let _call = call(Call::Release);
        let served = self.now_serving.load(SeqCst);
        self.now_serving.store(served.wrapping_add(1), SeqCst);
    }
}

impl Tested for TicketLock {
    const LOCK: Lock = Lock::Ticket;
    const BITS: u32 = 8;

    fn make(&self, _thread: usize, call: Call) {
        match call {
            Call::Acquire => self.acquire(),
            _ => self.release(),
        }
    }
}

fn main() -> ExitCode {
    driver::drive::<TicketLock>()
}
