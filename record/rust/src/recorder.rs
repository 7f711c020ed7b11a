//! The means by which a thread records: its log in the engine, and where the thread is in its lock.
//!
//! A thread that has no log, or that unwinds, records nothing: its operations are made as they are.
// SPDX-License-Identifier: Apache-2.0 OR MIT
#![allow(unsafe_code)]
// for calls of the engine with the thread's own log
// clippy of Rust 1.63 takes the initial value in `thread_local!` for a constant of this module.
#![allow(clippy::declare_interior_mutable_const)]

use std::cell::{Cell, RefCell};
use std::os::raw::c_int;
use std::panic;
use std::ptr::NonNull;
use std::sync::Arc;
use std::thread;

use crate::engine::{self, CLog, Engine, Noted, Source, OVER, WRITTEN};
use crate::kept::Kept;
use crate::noise::{self, Draw};
use crate::run::Shared;

/// The payload with which a stopped thread unwinds.
#[derive(Debug)]
pub(crate) struct Stopped;

/// Unwinds: the run was stopped. It is no panic, so nothing is printed.
fn stop() -> ! {
    panic::resume_unwind(Box::new(Stopped))
}

/// The means by which a thread records.
pub(crate) struct Recorder {
    pub(crate) shared: Arc<Shared>,
    pub(crate) thread: usize,
    engine: &'static Engine,
    log: *mut CLog,
    /// Whether the threads run as they like, so no operation has to wait.
    is_free: bool,
    pub(crate) is_by_turns: bool,
    noise: RefCell<Option<Draw>>,
    pub(crate) kept: RefCell<Option<Kept>>,
    /// The bytes of the record that the thread takes for its own.
    own: Cell<(usize, usize)>,
    /// How deep turns are nested.
    pub(crate) depth: Cell<usize>,
    /// How many operations on atomics were made in the turn.
    pub(crate) operations: Cell<usize>,
    /// How many monitors the thread is in, and whether it is in a call.
    pub(crate) monitors: Cell<usize>,
    pub(crate) in_call: Cell<bool>,
}

thread_local! {
    static CURRENT: Cell<Option<NonNull<Recorder>>> = const { Cell::new(None) };
}

/// Does something with the recorder, also while the thread unwinds. A thread that ends may have
/// lost it.
#[inline]
pub(crate) fn place<R>(record: impl FnOnce(&Recorder) -> R) -> Option<R> {
    let current = CURRENT.try_with(Cell::get).ok().flatten()?;
    // SAFETY: `Log` owns the recorder, and takes it from here before it drops it.
    Some(record(unsafe { current.as_ref() }))
}

/// Does something with the recorder, if this thread records.
#[inline]
pub(crate) fn with<R>(record: impl FnOnce(&Recorder) -> R) -> Option<R> {
    if thread::panicking() {
        return None;
    }
    place(record)
}

/// Begins to record, in place of any recorder before.
pub(crate) fn install(recorder: &Recorder) {
    CURRENT.with(|current| current.set(Some(NonNull::from(recorder))));
}

/// Ends recording.
pub(crate) fn remove() {
    let _ = CURRENT.try_with(|current| current.set(None));
}

impl Recorder {
    pub(crate) fn of(shared: Arc<Shared>, thread: usize) -> Recorder {
        let mode = &shared.mode;
        Recorder {
            thread,
            engine: shared.of_c.engine(),
            log: shared.of_c.log(thread),
            is_free: !mode.has_order(),
            is_by_turns: shared.is_by_turns(),
            noise: RefCell::new(mode.noise().map(|seed| Draw::of_thread(seed, thread))),
            kept: RefCell::new(shared.take_kept(thread)),
            own: Cell::new((0, 0)),
            depth: Cell::new(0),
            operations: Cell::new(0),
            monitors: Cell::new(0),
            in_call: Cell::new(false),
            shared,
        }
    }

    /// Waits until all threads have come. Returns whether the run goes on.
    pub(crate) fn start(&self) -> bool {
        // SAFETY: the log is of this thread, and its run is open.
        unsafe { (self.engine.start)(self.log) == 0 }
    }

    pub(crate) fn leave(&self, has_ended: bool) {
        // SAFETY: as above.
        unsafe { (self.engine.leave)(self.log, c_int::from(has_ended)) };
    }

    /// The thread in whose record an address is.
    pub(crate) fn owner_of(&self, address: usize) -> usize {
        let (first, length) = self.own.get();
        if first != 0 && address.wrapping_sub(first) < length {
            return self.thread;
        }
        // SAFETY: as above. No record is read.
        unsafe { engine::lr_owner_of(self.log, address) as usize }
    }

    pub(crate) fn note(&self, noted: &Noted) {
        // SAFETY: as above. The note's place is a location.
        let fate = unsafe { (self.engine.note)(self.log, noted) };
        if fate & WRITTEN != 0 {
            if let Some(kept) = &mut *self.kept.borrow_mut() {
                kept.keep(&format!("{}\n", self.shared.of_c.last_made(self.thread)));
            }
        }
        if fate & OVER != 0 {
            stop();
        }
    }

    #[inline]
    pub(crate) fn take_turn(&self, may_be_step: bool) {
        if self.depth.get() == 0 {
            self.operations.set(0);
            self.take(may_be_step);
        }
        self.depth.set(self.depth.get() + 1);
    }

    #[inline]
    fn take(&self, may_be_step: bool) {
        if self.is_free {
            if let Some(draw) = &mut *self.noise.borrow_mut() {
                noise::make(draw);
            }
        }
        let is_step = may_be_step && self.in_call.get();
        let step = if is_step { engine::TAKES_STEP } else { 0 };
        let monitor = if self.monitors.get() > 0 { engine::TAKES_IN_MONITOR } else { 0 };
        // SAFETY: as above.
        if unsafe { (self.engine.take)(self.log, step | monitor) } != 0 {
            stop();
        }
    }

    pub(crate) fn give_turn(&self) {
        self.depth.set(self.depth.get() - 1);
        if self.depth.get() == 0 && !self.is_free {
            // SAFETY: as above.
            unsafe { (self.engine.give)(self.log) };
        }
    }

    /// Another thread could have had its turn, though nothing was done.
    pub(crate) fn switched(&self) {
        // SAFETY: as above.
        unsafe { (self.engine.switched)(self.log) };
    }

    /// The step that is made touches what is at an address.
    #[inline]
    pub(crate) fn touch(&self, address: usize, writes: bool) {
        if self.is_by_turns {
            // SAFETY: as above. Nothing is read at the address.
            unsafe { (self.engine.touch)(self.log, address, c_int::from(writes)) };
        }
    }

    /// An operation without a note was made at an address.
    #[inline]
    pub(crate) fn unnoted(&self, address: usize, changed: bool) {
        if self.is_by_turns {
            // SAFETY: as above.
            unsafe { (self.engine.unnoted)(self.log, address, c_int::from(changed)) };
        }
    }

    /// Takes a record for the thread's own.
    pub(crate) fn own(&self, first: *const u8, length: usize) {
        self.own.set((first as usize, length));
        // SAFETY: as above. The record is not read.
        unsafe { engine::lr_own(first.cast(), length) };
    }

    /// By turns: waits until the thread is woken at an address.
    pub(crate) fn park(&self, address: usize) {
        // SAFETY: as above. The address is a name.
        if unsafe { (self.engine.park)(self.log, address) } != 0 {
            stop();
        }
    }

    /// By turns: wakes the threads that wait at an address, or one of them.
    pub(crate) fn wake(&self, address: usize, all: bool, at: Source) {
        let (at, all) = (at as *const panic::Location<'static>, c_int::from(all));
        // SAFETY: as above. The location lives as long as the process.
        unsafe { (self.engine.wake)(self.log, address, all, at.cast()) };
    }

    /// Unwinds if the run was stopped.
    pub(crate) fn go_on(&self) {
        if self.shared.of_c.is_stopped() {
            stop();
        }
    }
}
