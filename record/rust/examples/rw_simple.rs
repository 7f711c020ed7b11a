//! The simple read-write lock, as a monitor.
//!
//! After Herlihy and Shavit, "The Art of Multiprocessor Programming", chapter 8, with a downgrade.
// SPDX-License-Identifier: Apache-2.0 OR MIT

mod driver;
mod read_write;

use std::process::ExitCode;

use lockreplay_record::{call, Call, Condvar, Lock, Mutex, Outcome};
use read_write::ReadWrite;

#[derive(Default)]
struct State {
    readers: u64,
    writer: bool,
}

#[derive(Default)]
struct SimpleLock {
    state: Mutex<State>,
    changed: Condvar,
}

impl ReadWrite for SimpleLock {
    const KIND: Lock = Lock::RwSimple;
    const WIDTH: u32 = 64;

    fn read_lock(&self) {
        let _call = call(Call::ReadLock);
        let mut state = self.state.lock().unwrap();
        while state.writer {
            state.note(Outcome::Waits);
            state = self.changed.wait(state).unwrap();
        }
        state.readers += 1;
        state.note(Outcome::Entered);
    }

    fn read_unlock(&self) {
        let _call = call(Call::ReadUnlock);
        let mut state = self.state.lock().unwrap();
        state.readers -= 1;
        state.note(Outcome::Left);
        self.changed.notify_all();
    }

    fn write_lock(&self) {
        let _call = call(Call::WriteLock);
        let mut state = self.state.lock().unwrap();
        while state.readers > 0 || state.writer {
            state.note(Outcome::Waits);
            state = self.changed.wait(state).unwrap();
        }
        state.writer = true;
        state.note(Outcome::Entered);
    }

    fn write_unlock(&self) {
        let _call = call(Call::WriteUnlock);
        let mut state = self.state.lock().unwrap();
        state.writer = false;
        state.note(Outcome::Left);
        self.changed.notify_all();
    }

    fn downgrade(&self) {
        let _call = call(Call::Downgrade);
        let mut state = self.state.lock().unwrap();
        state.writer = false;
        state.readers += 1;
        state.note(Outcome::Entered);
        self.changed.notify_all();
    }
}

fn main() -> ExitCode {
    driver::drive::<SimpleLock>()
}
