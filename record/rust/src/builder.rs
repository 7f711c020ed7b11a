//! The options of a run, and how it is opened.
// SPDX-License-Identifier: Apache-2.0 OR MIT

use std::ffi::{CStr, CString};
use std::path::PathBuf;
use std::ptr;
use std::sync::Arc;

use crate::engine::{self, Engine, RunOfC, Setup};
use crate::error::Error;
use crate::explore::Explore;
use crate::lock::Header;
use crate::mode::Mode;
use crate::run::{Run, Shared};
use crate::save;
use crate::search::Way;

/// One turn in so many is hardly ever one of a run.
const MOST_WAKES: usize = i32::MAX as usize;

/// The options of a run before it is opened.
#[derive(Clone, Debug)]
#[must_use = "a run is opened by `open`"]
pub struct RunBuilder {
    pub(crate) header: Header,
    pub(crate) mode: Mode,
    room: usize,
    pub(crate) spurious: Option<usize>,
    pub(crate) start: u64,
    folder: Option<PathBuf>,
    reduces: bool,
}

impl RunBuilder {
    pub(crate) fn of(header: Header) -> RunBuilder {
        let (mode, room, spurious, start, folder) = (Mode::Free, 1 << 16, None, 0, None);
        RunBuilder { header, mode, room, spurious, start, folder, reduces: true }
    }

    /// How the threads are scheduled; [`Mode::Free`] if this is not said.
    pub fn mode(self, mode: Mode) -> RunBuilder {
        RunBuilder { mode, ..self }
    }

    /// The width of the lock's counters; 64, if nothing wraps around.
    pub fn bits(self, bits: u32) -> RunBuilder {
        RunBuilder { header: Header { bits, ..self.header }, ..self }
    }

    /// The number at which the lock's counters begin; 0 if this is not said. A trace has what was
    /// counted since then. So a few rounds are enough to see counters wrap around.
    pub fn start(self, start: u64) -> RunBuilder {
        RunBuilder { start, ..self }
    }

    /// How many moves each log has room for; 65,536 if this is not said. A full log counts what it
    /// drops. A round of a ticket lock takes at most 6 moves, and two more for each thread before
    /// it in the queue; of an MCS lock 15; of a read-write lock 11, and if the order of moves is
    /// known, one more for each look while it waits that comes after another thread's move. With
    /// [`Mode::Follow`] each poll of the schedule takes one.
    pub fn room(self, moves: usize) -> RunBuilder {
        RunBuilder { room: moves, ..self }
    }

    /// Spurious wakeups, with [`Mode::Seed`] and [`Mode::Pct`]: one turn in this many wakes a
    /// thread that waits for a notification which nobody gave; 0 means none. They reveal a thread
    /// that does not test its condition again after its wait. By default, one turn in 8 has one
    /// with an even seed. Runs that are [explored](RunBuilder::explore) have them unless this is 0.
    pub fn spurious(self, one_in: usize) -> RunBuilder {
        RunBuilder { spurious: Some(one_in), ..self }
    }

    /// Whether [explored](RunBuilder::explore) runs leave out orders of steps that touch different
    /// words, or load the same one; they do by default. Then a thread that found the same twice in
    /// a row looks again only when the word was changed: not for a lock that counts its looks. An
    /// operation without an atomic, a mutex or a note of this crate is not seen.
    pub fn reduced(self, reduces: bool) -> RunBuilder {
        RunBuilder { reduces, ..self }
    }

    /// A folder in which the log of each thread has its moves as soon as they are made, so that an
    /// abort or `kill -9` leaves the logs, for `locktrace order`, up to their last moves, with a
    /// comment of many `#` after them. On Linux of 64 bits the logs are mapped to memory; elsewhere
    /// each move costs a system call. If this is not said, they are in memory until [`Run::save`].
    pub fn kept_in(self, folder: impl Into<PathBuf>) -> RunBuilder {
        RunBuilder { folder: Some(folder.into()), ..self }
    }

    /// Opens the run, with memory for all of its logs.
    ///
    /// # Errors
    ///
    /// No run has these threads or bits, the schedule that is to be followed is of another lock,
    /// the mode has no seed for [wakes](RunBuilder::spurious), memory was refused, or a log cannot
    /// be [kept](RunBuilder::kept_in).
    pub fn open(self) -> Result<Run, Error> {
        self.header.checked()?;
        match &self.mode {
            Mode::Follow(schedule) if !schedule.is_of(&self.header) => {
                Err(Error::OtherRun { run: self.header.to_string() })
            }
            mode if mode.seed().is_none() && self.spurious.unwrap_or(0) > 0 => Err(Error::NoSeed),
            _ => self.open_on(None, 0),
        }
    }

    /// All runs with at most this many *preemptions*: turns taken from a thread that could go on.
    /// The threads run by turns, whatever the mode. A thread that polled in vain, finding the same
    /// value in one atomic twice in a row, cannot go on until another thread makes a step. A thread
    /// that waits for a notification may wake up without it, which counts as a preemption.
    ///
    /// Runs with fewer preemptions come first. Each has to be run before the next one is asked for,
    /// with a new lock. If none is refused and none hangs, no run of these threads with at most
    /// this many preemptions is wrong: a run that is left out differs from one that is made only in
    /// the order of [independent](RunBuilder::reduced) steps, or in further polls in vain. If
    /// [polls were left out](Explore::leaves_out_polls), a lock that counts its looks may be wrong.
    /// Begin with two threads and a round each: there are many runs.
    ///
    /// ```
    /// use lockreplay_record::{AtomicU8, Ending, Error, Lock, Run};
    /// use std::{sync::atomic::Ordering::SeqCst, time::Duration};
    ///
    /// let mut counts = Vec::new();
    /// for run in Run::builder(Lock::Ticket, 2).explore(1) {
    ///     let count = AtomicU8::new(0);
    ///     let ending = run?.threads(Duration::from_secs(10), |_log| {
    ///         count.store(count.load(SeqCst) + 1, SeqCst);
    ///     })?;
    ///     assert_eq!(ending, Ending::Complete);
    ///     counts.push(count.load(SeqCst));
    /// }
    /// assert_eq!(counts[..2], [2, 2]); // one thread after the other
    /// assert!(counts[2..].contains(&1)); // and one between the other's load and store
    /// # Ok::<(), Error>(())
    /// ```
    #[must_use]
    pub fn explore(self, preemptions: usize) -> Explore {
        Explore::new(self.mode(Mode::Ordered), preemptions)
    }

    pub(crate) fn lacks_memory(&self) -> Error {
        Error::OutOfMemory { logs: self.header.threads, room: self.room }
    }

    /// Opens a run, also one that is explored, which begins with these choices and has this number.
    pub(crate) fn open_on(self, way: Option<Way>, number: u64) -> Result<Run, Error> {
        let name = CString::new(self.header.lock.name()).unwrap_or_default();
        let engine = engine_of(&self.mode, way.is_some(), self.reduces);
        let has_room = self.room < usize::MAX >> 16;
        let setup = self.setup(&name, way.as_ref(), number);
        let of_c = has_room.then(|| RunOfC::open(engine, &setup)).flatten();
        let of_c = of_c.ok_or_else(|| self.lacks_memory())?;
        let folder = self.folder.clone();
        let run = Shared::of(of_c, self, way);
        if let Some(folder) = folder {
            save::begin(&run, &folder)?;
        }
        Ok(Run(Arc::new(run)))
    }

    /// The options as the engine takes them.
    fn setup(&self, name: &CStr, way: Option<&Way>, number: u64) -> Setup {
        let (depth, steps) = match self.mode {
            Mode::Pct { depth, steps, .. } => (depth.max(1), steps.max(1)),
            _ => (0, 0),
        };
        let (seed, lines) = match &self.mode {
            Mode::Follow(schedule) => (schedule.seed(), schedule.lines()),
            mode => (mode.seed().unwrap_or(0), &[][..]),
        };
        let choices = way.map_or(&[][..], Way::choices);
        let spurious = self.spurious.filter(|&one_in| way.is_none() || one_in == 0);
        Setup {
            lock: name.as_ptr(),
            threads: self.header.threads as u32,
            bits: self.header.bits,
            room: self.room,
            seed,
            number,
            depth,
            steps,
            spurious: spurious.map_or(-1, |one_in| one_in.min(MOST_WAKES) as i64),
            start: self.start,
            lines: lines.as_ptr(),
            lines_count: lines.len(),
            way: if choices.is_empty() { ptr::null() } else { choices.as_ptr() },
            way_length: choices.len(),
            is_ordered: (self.mode == Mode::Ordered && way.is_none()).into(),
            tell_place: engine::tell_place,
        }
    }
}

/// The engine of a mode.
#[allow(unsafe_code)]
fn engine_of(mode: &Mode, explores: bool, reduces: bool) -> &'static Engine {
    // SAFETY: these are constants.
    unsafe {
        match mode {
            _ if explores && reduces => &engine::lr_engine_explore,
            _ if explores => &engine::lr_engine_explore_all,
            Mode::Free | Mode::Noise(_) | Mode::Ordered => &engine::lr_engine_values,
            Mode::Seed(_) | Mode::Pct { .. } => &engine::lr_engine_seed,
            Mode::Follow(_) => &engine::lr_engine_follow,
        }
    }
}
