//! The FIFO read-write lock, as a monitor, with counts of 8 bits.
//!
//! After Herlihy and Shavit, "The Art of Multiprocessor Programming", chapter 8, with a downgrade.
//! A writer sets the flag first, and then waits for the readers that are inside.
// SPDX-License-Identifier: Apache-2.0 OR MIT

mod driver;
mod read_write;

use std::num::Wrapping;
use std::process::ExitCode;

use lockreplay_record::{call, Call, Condvar, Lock, Mutex, Outcome};
use read_write::ReadWrite;

#[derive(Default)]
struct State {
    read_acquires: Wrapping<u8>,
    read_releases: Wrapping<u8>,
    writer: bool,
}

impl State {
    fn has_readers(&self) -> bool {
        self.read_acquires != self.read_releases
    }
}

#[derive(Default)]
struct FifoLock {
    state: Mutex<State>,
    changed: Condvar,
}

impl ReadWrite for FifoLock {
    const KIND: Lock = Lock::RwFifo;
    const WIDTH: u32 = 8;

    fn read_lock(&self) {
        let _call = call(Call::ReadLock);
        let mut state = self.state.lock().unwrap();
        while state.writer {
            state.note(Outcome::Waits);
            state = self.changed.wait(state).unwrap();
        }
        state.read_acquires += 1;
        state.note(Outcome::Entered);
    }

    fn read_unlock(&self) {
        let _call = call(Call::ReadUnlock);
        let mut state = self.state.lock().unwrap();
        state.read_releases += 1;
        state.note(Outcome::Left);
        self.changed.notify_all();
    }

    fn write_lock(&self) {
        let _call = call(Call::WriteLock);
        let mut state = self.state.lock().unwrap();
        while state.writer {
            state.note(Outcome::Waits);
            state = self.changed.wait(state).unwrap();
        }
        state.writer = true;
        if state.has_readers() {
            state.note(Outcome::Moved);
            state = self.changed.wait(state).unwrap();
        }
        while state.has_readers() {
            state.note(Outcome::Waits);
            state = self.changed.wait(state).unwrap();
        }
        state.note(Outcome::Entered);
    }

    fn write_unlock(&self) {
        let _call = call(Call::WriteUnlock);
        let mut state = self.state.lock().unwrap();
        state.writer = false;
        state.note(Outcome::Left);
        self.changed.notify_all();
    }

    fn downgrade(&self) {
        let _call = call(Call::Downgrade);
        let mut state = self.state.lock().unwrap();
        state.writer = false;
        state.read_acquires += 1;
        state.note(Outcome::Entered);
        self.changed.notify_all();
    }
}

fn main() -> ExitCode {
    driver::drive::<FifoLock>()
}
