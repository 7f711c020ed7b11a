//! Checks a run in the process, without a file, by `locktrace.c`, which the build script compiles.
//!
//! It is the check of `locktrace`, as `built/locktrace.h` declares it for C.
// SPDX-License-Identifier: Apache-2.0 OR MIT
#![allow(unsafe_code)]

use std::os::raw::{c_char, c_int};
use std::slice;
use std::sync::atomic::Ordering;

use crate::engine::{self, CRun, RunOfC};
use crate::error::Error;
use crate::lock::MOST_THREADS;
use crate::mode::Mode;
use crate::run::{Run, Shared};

/// The outcomes with which a call is over.
const ENTERED: u32 = 3;
const LEFT: u32 = 4;

const SAID: usize = 1024;

extern "C" {
    fn lr_check_run(run: *mut CRun, text: *const u8, length: usize, fault: *mut Fault) -> c_int;
    fn lr_order_of(run: *const CRun) -> *const u8;
}

/// The fault of a run, as the engine writes it.
#[repr(C)]
struct Fault {
    line: u64,
    at: u64,
    fault: u32,
    is_empty: u32,
    last: [u32; MOST_THREADS],
    why: [c_char; SAID],
}

impl Fault {
    fn why(&self) -> String {
        engine::text_of(&self.why)
    }
}

impl RunOfC {
    /// `None` if memory is refused.
    fn check_text(&self, text: &str) -> Option<Fault> {
        let mut fault = Fault {
            line: 0,
            at: 0,
            fault: 0,
            is_empty: 0,
            last: [0; MOST_THREADS],
            why: [0; SAID],
        };
        // SAFETY: the text has these bytes, and the fault the layout that C takes it to have.
        let is_checked =
            unsafe { lr_check_run(self.run.as_ptr(), text.as_ptr(), text.len(), &mut fault) };
        (is_checked != 0).then_some(fault)
    }
    /// The thread of each of the first moves.
    fn order(&self, ordered: u64) -> &[u8] {
        // SAFETY: so many moves are in the order, and no later one changes that.
        unsafe { slice::from_raw_parts(lr_order_of(self.run.as_ptr()), ordered as usize) }
    }
}

impl Run {
    /// Checks the run's trace as `locktrace check` does, in this process. The run is refused too if
    /// a thread was stopped inside a call that the lock's machine has completed, or if a thread has
    /// ended inside a call.
    ///
    /// With the feature `check` alone.
    ///
    /// ```
    /// use lockreplay_record::{call, Call, Error, Lock, Mode, Run};
    /// use std::time::Duration;
    ///
    /// let run = Run::builder(Lock::Mcs, 1).mode(Mode::Seed(1)).open()?;
    /// run.threads(Duration::from_secs(10), |_log| {
    ///     let _call = call(Call::Release); // of a lock that nobody has
    /// })?;
    /// let said = run.check().unwrap_err().to_string();
    /// assert!(said.starts_with("refused at line 4 of the trace, "), "{said}");
    /// assert!(said.contains(".rs:") && said.contains(", '0 release': "), "{said}");
    /// # Ok::<(), Error>(())
    /// ```
    ///
    /// # Errors
    ///
    /// The trace is refused, a thread goes on with a call that is over or has ended inside one,
    /// nothing was noted by threads that have all ended, though no schedule said so, or the threads
    /// ran as they like: then `locktrace order` finds their order.
    pub fn check(&self) -> Result<(), Error> {
        let is_empty = self.check_moves()? == 0 && self.0.of_c.state().missing == 0;
        if is_empty && !matches!(self.0.mode, Mode::Follow(_)) {
            return Err(Error::Empty);
        }
        Ok(())
    }

    /// Checks the run, also one in which nothing was noted. Returns how many moves it has.
    pub(crate) fn check_moves(&self) -> Result<usize, Error> {
        if !self.0.mode.has_order() {
            return Err(Error::NoOrder);
        }
        let (trace, ordered) = (self.trace()?, self.0.of_c.state().ordered);
        let lacks = || Error::OutOfMemory { logs: 1, room: ordered as usize };
        let fault = self.0.of_c.check_text(&trace).ok_or_else(lacks)?;
        if fault.fault == 0 {
            return beside(&self.0, &fault).map_or(Ok(ordered as usize), Err);
        }
        let made = moves_of(&self.0).nth(fault.at as usize);
        let made = made.map_or_else(String::new, |(thread, made, place)| {
            format!("{place}, '{thread} {made}'")
        });
        Err(Error::Refused { line: fault.line, made, reason: fault.why() })
    }

    /// The moves of the run in their order, each with its line in the trace and its place in the
    /// source.
    pub(crate) fn listing(&self) -> Result<String, Error> {
        let lines = self.trace()?;
        let head = lines.lines().take_while(|line| !line.starts_with(|it: char| it.is_numeric()));
        let first = head.count() + 1;
        let shown = moves_of(&self.0).enumerate().map(|(at, (thread, made, place))| {
            format!("\n{:5} {thread} {made:36} {place}", at + first)
        });
        Ok(shown.collect())
    }
}

/// The moves of all threads in their order, and where in the source each was made.
fn moves_of(run: &Shared) -> impl Iterator<Item = (u8, String, String)> + '_ {
    let state = run.of_c.state();
    let mut next = [0; MOST_THREADS];
    let order = run.of_c.order(state.ordered).iter();
    let known = order.take_while(move |&&thread| state.absent >> thread & 1 == 0);
    known.map(move |&thread| {
        let at = &mut next[usize::from(thread)];
        *at += 1;
        let (made, source) = run.of_c.made(usize::from(thread), *at - 1);
        (thread, made, format!("{}:{}", source.file(), source.line()))
    })
}

/// The fault of how a thread ended: inside a call, or not at all though that call is over.
fn beside(run: &Shared, fault: &Fault) -> Option<Error> {
    let (state, in_call) = (run.of_c.state(), run.in_call.load(Ordering::Relaxed));
    if state.is_cut != 0 {
        return None; // the last moves are not known
    }
    let is_in = |threads: u64, thread: usize| threads >> thread & 1 == 1;
    (0..run.header.threads).find_map(|thread| {
        let is_over = matches!(fault.last[thread], ENTERED | LEFT);
        match (is_over, is_in(state.missing, thread)) {
            (true, true) if is_in(in_call, thread) => Some(Error::GoesOn { thread }),
            (false, false) => Some(Error::EndsInCall { thread }),
            _ => None,
        }
    })
}
