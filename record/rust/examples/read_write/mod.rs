//! What the two read-write examples share: which of a lock's functions makes which call.
// SPDX-License-Identifier: Apache-2.0 OR MIT

use lockreplay_record::{Call, Lock};

use crate::driver::Tested;

/// A read-write lock under test. Its default is a new one.
pub trait ReadWrite: Default + Sync {
    const KIND: Lock;
    /// The width of its counters.
    const WIDTH: u32;

    fn read_lock(&self);
    fn read_unlock(&self);
    fn write_lock(&self);
    fn write_unlock(&self);
    fn downgrade(&self);
}

impl<L: ReadWrite> Tested for L {
    const LOCK: Lock = L::KIND;
    const BITS: u32 = L::WIDTH;

    fn make(&self, _thread: usize, call: Call) {
        match call {
            Call::ReadLock => self.read_lock(),
            Call::ReadUnlock => self.read_unlock(),
            Call::WriteLock => self.write_lock(),
            Call::Downgrade => self.downgrade(),
            _ => self.write_unlock(),
        }
    }
}
