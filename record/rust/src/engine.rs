//! The recorder in C: its functions and its types, as `engine.c` and `engine_common.h` have them.
// SPDX-License-Identifier: Apache-2.0 OR MIT
#![allow(unsafe_code)]

use std::ffi::{c_void, CStr};
use std::os::raw::{c_char, c_int, c_long, c_uint, c_ulong};
use std::panic::Location;
use std::ptr::{self, NonNull};
use std::slice;

use crate::schedule::Line;

/// Where a move was made.
pub(crate) type Source = &'static Location<'static>;

/// Types of C, of which only pointers are known here.
pub(crate) enum CRun {}
pub(crate) enum CLog {}
pub(crate) enum CSearch {}
pub(crate) enum CWay {}

/// The bits of what `Engine::take` is told, and of what `Engine::note` tells.
pub(crate) const TAKES_STEP: c_int = 1;
pub(crate) const TAKES_IN_MONITOR: c_int = 2;
pub(crate) const WRITTEN: c_uint = 1;
pub(crate) const OVER: c_uint = 2;

/// In a note: in no thread's record but the own one; the bits of its part.
pub(crate) const OWN: u32 = 256;
pub(crate) const FOUND_TOO: u32 = 0x40;
pub(crate) const LEFT_TOO: u32 = 0x80;
/// The holder of the turn if nobody has it.
pub(crate) const NO_HOLDER: u32 = 256;
const LINE: usize = 128;

#[repr(C)]
pub(crate) struct Setup {
    pub(crate) lock: *const c_char,
    pub(crate) threads: u32,
    pub(crate) bits: u32,
    pub(crate) room: usize,
    pub(crate) seed: u64,
    pub(crate) number: u64,
    pub(crate) depth: usize,
    pub(crate) steps: usize,
    pub(crate) spurious: i64,
    pub(crate) start: u64,
    pub(crate) lines: *const Line,
    pub(crate) lines_count: usize,
    pub(crate) way: *const u8,
    pub(crate) way_length: usize,
    pub(crate) is_ordered: c_int,
    pub(crate) tell_place: extern "C" fn(*mut c_char, usize, *const c_void),
}

#[repr(C)]
pub(crate) struct Noted {
    pub(crate) found: u64,
    pub(crate) left: u64,
    pub(crate) place: *const c_void,
    pub(crate) word: u32,
    pub(crate) on: u32,
    pub(crate) owner: u32,
    pub(crate) part: u32,
}

#[repr(C)]
pub(crate) struct State {
    pub(crate) number: u64,
    pub(crate) missing: u64,
    pub(crate) absent: u64,
    pub(crate) turns: u64,
    pub(crate) ordered: u64,
    pub(crate) woke: u64,
    signalled: *const c_void,
    pub(crate) holder: u32,
    pub(crate) gone: u32,
    pub(crate) has_hung: u32,
    pub(crate) is_cut: u32,
    pub(crate) has_strayed: u32,
    pub(crate) leaves_out: u32,
    pub(crate) did: u32,
    pub(crate) by: u32,
    pub(crate) word: u32,
    pub(crate) due: u32,
}

#[cfg(feature = "check")]
impl State {
    pub(crate) fn signalled(&self) -> Option<Source> {
        // SAFETY: `Engine::wake` got it from a location, which lives as long as the process.
        unsafe { self.signalled.cast::<Location<'static>>().as_ref() }
    }
}

/// The functions of one mode.
#[repr(C)]
pub(crate) struct Engine {
    open: unsafe extern "C" fn(*const Setup) -> *mut CRun,
    pub(crate) come: unsafe extern "C" fn(*mut CRun, c_uint) -> c_int,
    pub(crate) start: unsafe extern "C" fn(*mut CLog) -> c_int,
    pub(crate) leave: unsafe extern "C" fn(*mut CLog, c_int),
    pub(crate) take: unsafe extern "C" fn(*mut CLog, c_int) -> c_int,
    pub(crate) give: unsafe extern "C" fn(*mut CLog),
    pub(crate) note: unsafe extern "C" fn(*mut CLog, *const Noted) -> c_uint,
    pub(crate) unnoted: unsafe extern "C" fn(*mut CLog, usize, c_int),
    pub(crate) touch: unsafe extern "C" fn(*mut CLog, usize, c_int),
    pub(crate) switched: unsafe extern "C" fn(*mut CLog),
    pub(crate) park: unsafe extern "C" fn(*mut CLog, usize) -> c_int,
    pub(crate) wake: unsafe extern "C" fn(*mut CLog, usize, c_int, *const c_void),
    pub(crate) add_others: Option<unsafe extern "C" fn(*mut CSearch, *mut CRun, *const CWay)>,
}

#[allow(non_upper_case_globals)]
extern "C" {
    pub(crate) static lr_engine_values: Engine;
    pub(crate) static lr_engine_seed: Engine;
    pub(crate) static lr_engine_follow: Engine;
    pub(crate) static lr_engine_explore: Engine;
    pub(crate) static lr_engine_explore_all: Engine;
    fn lr_keep_processor(pin: *mut Pin);
    fn lr_free_processor(pin: *const Pin);
    fn lr_close_run(run: *mut CRun);
    fn lr_stop_run(run: *mut CRun);
    fn lr_is_stopped(run: *const CRun) -> c_int;
    fn lr_log_at(run: *mut CRun, thread: c_uint) -> *mut CLog;
    fn lr_wait_until_gone(run: *mut CRun, milliseconds: u64) -> c_int;
    fn lr_say_late_line(run: *mut CRun);
    fn lr_state_of(run: *mut CRun, state: *mut State);
    fn lr_counts_of(run: *const CRun, thread: c_uint, moves: *mut u64, dropped: *mut u64);
    fn lr_move_of(run: *const CRun, thread: c_uint, at: u64, line: *mut c_char) -> *const c_void;
    fn lr_last_move(run: *const CRun, thread: c_uint, line: *mut c_char);
    fn lr_trace_of(
        run: *const CRun,
        head: *const u8,
        length: usize,
        absent: u64,
        size: *mut usize,
    ) -> *mut u8;
    fn lr_free_text(text: *mut u8);
    pub(crate) fn lr_own(record: *const c_void, length: usize);
    pub(crate) fn lr_owner_of(log: *const CLog, address: usize) -> c_uint;
}

/// Keeps the thread, and those that it starts, on one processor until this is dropped: with one
/// thread at a time a turn then takes another processor's wakeup no more.
#[repr(C)]
pub(crate) struct Pin {
    before: [c_ulong; 16],
    size: c_long,
}

impl Pin {
    pub(crate) fn take() -> Pin {
        let mut pin = Pin { before: [0; 16], size: -1 };
        // SAFETY: it has the layout of `lr_pin`, or is larger.
        unsafe { lr_keep_processor(&mut pin) };
        pin
    }
}

impl Drop for Pin {
    fn drop(&mut self) {
        // SAFETY: as above.
        unsafe { lr_free_processor(self) };
    }
}

/// Writes a place of the source for C, which ends it with a 0.
pub(crate) extern "C" fn tell_place(text: *mut c_char, room: usize, place: *const c_void) {
    // SAFETY: a place is a location, which lives as long as the process.
    let place = unsafe { place.cast::<Location<'static>>().as_ref() };
    let said = place.map_or_else(String::new, |at| format!("{}:{}", at.file(), at.line()));
    let length = said.len().min(room.saturating_sub(1));
    // SAFETY: the text has this room.
    unsafe {
        ptr::copy_nonoverlapping(said.as_ptr(), text.cast::<u8>(), length);
        *text.add(length) = 0;
    }
}

/// A run of the engine, until this is dropped.
#[derive(Debug)]
pub(crate) struct RunOfC {
    engine: &'static Engine,
    pub(crate) run: NonNull<CRun>,
}

impl std::fmt::Debug for Engine {
    fn fmt(&self, out: &mut std::fmt::Formatter<'_>) -> std::fmt::Result {
        out.write_str("Engine")
    }
}

// SAFETY: the engine takes its own locks, and what it does without one only a thread that has its
// turn asks for.
unsafe impl Send for RunOfC {}
unsafe impl Sync for RunOfC {}

impl Drop for RunOfC {
    fn drop(&mut self) {
        // SAFETY: no log of the run is left: each keeps the run.
        unsafe { lr_close_run(self.run.as_ptr()) };
    }
}

impl RunOfC {
    /// `None` if memory is refused.
    pub(crate) fn open(engine: &'static Engine, setup: &Setup) -> Option<RunOfC> {
        // SAFETY: what the setup points to lives until this returns; the way as long as the run.
        let run = NonNull::new(unsafe { (engine.open)(setup) })?;
        Some(RunOfC { engine, run })
    }

    pub(crate) fn engine(&self) -> &'static Engine {
        self.engine
    }

    /// A thread has come. Whether it is the first time.
    pub(crate) fn come(&self, thread: usize) -> bool {
        // SAFETY: the run is open, and has this thread.
        unsafe { (self.engine.come)(self.run.as_ptr(), thread as c_uint) == 0 }
    }

    pub(crate) fn log(&self, thread: usize) -> *mut CLog {
        // SAFETY: the run is open, and has this thread.
        unsafe { lr_log_at(self.run.as_ptr(), thread as c_uint) }
    }

    pub(crate) fn stop(&self) {
        // SAFETY: the run is open.
        unsafe { lr_stop_run(self.run.as_ptr()) };
    }

    pub(crate) fn is_stopped(&self) -> bool {
        // SAFETY: the run is open.
        unsafe { lr_is_stopped(self.run.as_ptr()) != 0 }
    }

    pub(crate) fn wait(&self, milliseconds: u64) -> bool {
        // SAFETY: the run is open.
        unsafe { lr_wait_until_gone(self.run.as_ptr(), milliseconds) != 0 }
    }

    pub(crate) fn say_late_line(&self) {
        // SAFETY: the run is open.
        unsafe { lr_say_late_line(self.run.as_ptr()) };
    }

    pub(crate) fn state(&self) -> State {
        let mut state = std::mem::MaybeUninit::uninit();
        // SAFETY: the run is open, and all of the state is written.
        unsafe {
            lr_state_of(self.run.as_ptr(), state.as_mut_ptr());
            state.assume_init()
        }
    }

    /// How many moves a thread's log has, and how many it dropped.
    pub(crate) fn counts(&self, thread: usize) -> (u64, u64) {
        let (mut moves, mut dropped) = (0, 0);
        // SAFETY: the run is open, and has this thread.
        unsafe {
            lr_counts_of(self.run.as_ptr(), thread as c_uint, &mut moves, &mut dropped);
        }
        (moves, dropped)
    }

    /// A move as a trace has it, and where it was made.
    pub(crate) fn made(&self, thread: usize, at: u64) -> (String, Source) {
        let mut line = [0; LINE];
        // SAFETY: the log has this move. Its text ends with a 0, and its place is a location.
        unsafe {
            let place = lr_move_of(self.run.as_ptr(), thread as c_uint, at, line.as_mut_ptr());
            (text_of(&line), &*place.cast::<Location<'static>>())
        }
    }

    /// The last move of a thread, which the thread itself asks for.
    pub(crate) fn last_made(&self, thread: usize) -> String {
        let mut line = [0; LINE];
        // SAFETY: a move was just written. Its text ends with a 0.
        unsafe { lr_last_move(self.run.as_ptr(), thread as c_uint, line.as_mut_ptr()) };
        text_of(&line)
    }

    /// The moves of all threads after a head, up to the first of a thread that is absent; nothing
    /// if memory is refused.
    pub(crate) fn trace(&self, head: &str, absent: u64) -> Option<String> {
        let mut size = 0;
        // SAFETY: the head has these bytes, and the text that comes back has `size`.
        unsafe {
            let run = self.run.as_ptr();
            let text = lr_trace_of(run, head.as_ptr(), head.len(), absent, &mut size);
            let text = NonNull::new(text)?;
            let bytes = slice::from_raw_parts(text.as_ptr(), size).to_vec();
            lr_free_text(text.as_ptr());
            String::from_utf8(bytes).ok()
        }
    }
}

pub(crate) fn text_of(line: &[c_char]) -> String {
    // SAFETY: C has ended the text with a 0.
    unsafe { CStr::from_ptr(line.as_ptr()) }.to_string_lossy().into_owned()
}
