//! A run: its threads, their logs, and how it ends.
// SPDX-License-Identifier: Apache-2.0 OR MIT

use std::cell::Cell;
use std::fmt;
use std::io;
use std::marker::PhantomData;
use std::panic;
use std::path::Path;
use std::sync::atomic::{AtomicU64, Ordering};
use std::sync::{Arc, Mutex, PoisonError};
use std::thread::{self, Builder, ScopedJoinHandle};
use std::time::{Duration, Instant};

use crate::builder::RunBuilder;
use crate::engine::{Pin, RunOfC, State, NO_HOLDER};
use crate::error::Error;
use crate::follow::Departure;
use crate::kept::Kept;
use crate::lock::{Header, Lock, MOST_BITS};
use crate::mode::Mode;
use crate::moves::Call;
use crate::recorder::{self, Recorder, Stopped};
use crate::save;
use crate::search::Way;

/// A thread that keeps its turn for so long is said to block.
const WHILE: Duration = Duration::from_millis(500);

/// Shared by all threads of a run.
#[derive(Debug)]
pub(crate) struct Shared {
    pub(crate) of_c: RunOfC,
    pub(crate) header: Header,
    /// `Ordered` for a run that is explored: nothing but its moves says how to repeat it.
    pub(crate) mode: Mode,
    /// One turn in this many has a spurious wakeup, if that was asked for.
    pub(crate) spurious: Option<usize>,
    /// The number at which the lock's counters began.
    pub(crate) start: u64,
    /// A bit for each thread that was stopped in the midst of a call.
    pub(crate) in_call: AtomicU64,
    /// The thread that had the turn when the time was over, and did not give it back for a while.
    blocked: Mutex<Option<usize>>,
    /// The files that have the logs as well, until the threads take theirs.
    kept: Mutex<Vec<Option<Kept>>>,
    /// The choices with which it begins, if it is explored.
    way: Option<Way>,
}

impl Shared {
    pub(crate) fn of(of_c: RunOfC, setup: RunBuilder, way: Option<Way>) -> Shared {
        let RunBuilder { header, mode, spurious, start, .. } = setup;
        let spurious = spurious.filter(|&one_in| way.is_none() || one_in == 0);
        let (in_call, blocked, kept) = (AtomicU64::new(0), Mutex::default(), Mutex::default());
        Shared { of_c, header, mode, spurious, start, in_call, blocked, kept, way }
    }

    pub(crate) fn is_by_turns(&self) -> bool {
        self.way.is_some() || self.mode.is_by_turns()
    }

    /// Has each log written to a file too.
    pub(crate) fn keep_in(&self, files: Vec<Option<Kept>>) {
        *self.kept.lock().unwrap_or_else(PoisonError::into_inner) = files;
    }

    pub(crate) fn take_kept(&self, thread: usize) -> Option<Kept> {
        let mut kept = self.kept.lock().unwrap_or_else(PoisonError::into_inner);
        kept.get_mut(thread).and_then(Option::take)
    }

    pub(crate) fn missing(&self, state: &State) -> Vec<usize> {
        (0..self.header.threads).filter(|thread| state.missing >> thread & 1 == 1).collect()
    }

    /// Waits until all threads have gone or the run was stopped. Stops it when the time is over.
    fn wait(&self, limit: Duration) {
        let begun = Instant::now();
        loop {
            let left = limit.saturating_sub(begun.elapsed());
            if self.of_c.wait(left.as_millis().min(1 << 30) as u64) {
                return;
            }
            if begun.elapsed() >= limit {
                self.look_who_blocks();
                self.of_c.say_late_line();
                self.of_c.stop();
            }
        }
    }

    /// By turns: if the turn does not change for a while, the thread that has it blocks.
    fn look_who_blocks(&self) {
        let before = self.of_c.state();
        if !self.is_by_turns() || before.holder == NO_HOLDER {
            return;
        }
        thread::sleep(WHILE);
        let now = self.of_c.state();
        let holder = usize::try_from(now.holder).ok();
        let is_late = now.turns == before.turns && now.holder != NO_HOLDER;
        *self.blocked.lock().unwrap_or_else(PoisonError::into_inner) = holder.filter(|_| is_late);
    }

    fn departure(&self, state: &State) -> Option<Departure> {
        match &self.mode {
            Mode::Follow(schedule) => Departure::of(state, schedule),
            _ => None,
        }
    }
}

/// How a run ended.
#[derive(Clone, Debug, PartialEq, Eq)]
pub enum Ending {
    /// All threads came to their end.
    Complete,
    /// These threads did not end, and no thread made progress: there was nothing but failed polls
    /// and waits.
    Hangs(Vec<usize>),
    /// These threads did not end. The run's time was over, though it may only have been slow; or
    /// the schedule that it followed ends in the middle of their calls. Their logs end there.
    Stopped(Vec<usize>),
    /// The lock left the schedule that the run followed. The move that it made is the last one of
    /// the run.
    Departed(Departure),
}

/// A run of a lock. Its clones are the same run.
///
/// ```
/// use lockreplay_record::{call, AtomicU8, Call, Ending, Error, Lock, Mode, Run, Word};
/// use std::{sync::atomic::Ordering::SeqCst, time::Duration};
///
/// static NEXT_TICKET: AtomicU8 = AtomicU8::new(0).noted(Word::NextTicket);
///
/// let run = Run::builder(Lock::Ticket, 1).bits(8).mode(Mode::Seed(17)).open()?;
/// let ending = run.threads(Duration::from_secs(10), |_log| {
///     let _call = call(Call::Acquire);
///     NEXT_TICKET.fetch_add(1, SeqCst);
/// })?;
/// assert_eq!(ending, Ending::Complete);
/// let lines = "0 acquire\n0 add next_ticket found 0 left 1\n";
/// assert!(run.trace()?.ends_with(lines));
/// # Ok::<(), Error>(())
/// ```
#[derive(Clone, Debug)]
pub struct Run(pub(crate) Arc<Shared>);

impl Run {
    /// A run of this lock by 1 to 64 threads.
    pub fn builder(lock: Lock, threads: usize) -> RunBuilder {
        RunBuilder::of(Header { lock, threads, bits: MOST_BITS })
    }

    /// As [`Run::builder`], which its name does not say.
    #[deprecated(note = "call `Run::builder`")]
    pub fn of(lock: Lock, threads: usize) -> RunBuilder {
        Run::builder(lock, threads)
    }

    /// Starts the run's threads, does the work on each, and waits until all have ended. If they
    /// hang, or do not end in time, they are stopped: each unwinds at its next operation on
    /// an atomic of this crate.
    ///
    /// # Errors
    ///
    /// The run was recorded already, or a thread could not be started.
    ///
    /// # Panics
    ///
    /// If the work panics, with the same payload. Clones of the run have what was noted until then.
    pub fn threads<F>(&self, limit: Duration, work: F) -> Result<Ending, Error>
    where
        F: Fn(&Log) + Sync,
    {
        let on_thread = |thread| -> Result<(), Error> {
            let log = self.enter(thread)?;
            work(&log);
            Ok(())
        };
        let _pin = self.0.is_by_turns().then(Pin::take);
        thread::scope(|scope| {
            let started: Result<Vec<_>, Error> = (0..self.0.header.threads)
                .map(|thread| {
                    let builder = Builder::new().name(format!("thread {thread}"));
                    builder.spawn_scoped(scope, move || on_thread(thread)).map_err(Error::Start)
                })
                .collect();
            let limit = if started.is_ok() { limit } else { Duration::ZERO };
            self.wait(limit);
            // It may never come back.
            if let Some(said) = self.blocked() {
                eprintln!("lockreplay_record: {said}");
            }
            started?.into_iter().try_for_each(ended)
        })?;
        let state = self.0.of_c.state();
        let missing = self.0.missing(&state);
        Ok(match self.0.departure(&state) {
            Some(departure) => Ending::Departed(departure),
            None if missing.is_empty() => Ending::Complete,
            None if state.has_hung != 0 => Ending::Hangs(missing),
            None => Ending::Stopped(missing),
        })
    }

    /// Which thread blocks in its turn, when the time was over.
    pub(crate) fn blocked(&self) -> Option<String> {
        let thread = (*self.0.blocked.lock().unwrap_or_else(PoisonError::into_inner))?;
        let is_monitor = self.0.header.lock.is_monitor();
        let how = if is_monitor { " (its Mutex and Condvar have to be this crate's)" } else { "" };
        Some(format!(
            "thread {thread} has its turn and does not give it back: it blocks{how}, or it polls \
             without this crate's atomics"
        ))
    }

    /// If the lock is under a monitor: whom the last notification woke, and where it was given.
    #[cfg(feature = "check")]
    pub(crate) fn last_notified(&self) -> Option<String> {
        let state = self.0.of_c.state();
        match state.signalled() {
            Some(at) => {
                let woke =
                    (0..self.0.header.threads).filter(|thread| state.woke >> thread & 1 == 1);
                let woke: Vec<usize> = woke.collect();
                Some(format!("the last notification, at {at}, woke threads {woke:?}"))
            }
            None if self.0.header.lock.is_monitor() => Some("nobody was notified".to_string()),
            None => None,
        }
    }

    /// How many turns the run had, if one thread ran at a time: for [`Mode::Pct`].
    #[must_use]
    pub fn turns(&self) -> usize {
        self.0.of_c.state().turns as usize
    }

    /// The choices with which a run that is explored begins.
    pub(crate) fn way(&self) -> Option<&Way> {
        self.0.way.as_ref()
    }

    /// Begins to record on the calling thread, as this thread of the run. It waits until all
    /// threads of the run have come. [`Run::threads`] does this for threads that it starts.
    ///
    /// # Errors
    ///
    /// There is no such thread, it has come before, the calling thread has a log already, or the
    /// run was stopped.
    pub fn enter(&self, thread: usize) -> Result<Log, Error> {
        let Header { threads, .. } = self.0.header;
        if thread >= threads {
            return Err(Error::NoSuchThread { thread, threads });
        }
        if crate::current::thread().is_some() {
            return Err(Error::AlreadyRecorded);
        }
        if !self.0.of_c.come(thread) {
            return Err(Error::ThreadTaken(thread));
        }
        let recorder = Box::new(Recorder::of(Arc::clone(&self.0), thread));
        recorder::install(&recorder);
        let (next_line, of_this_thread) = (Cell::new(0), PhantomData);
        let mut log = Log { recorder, next_line, has_begun: false, of_this_thread };
        if !log.recorder.start() {
            return Err(Error::Stopped);
        }
        log.has_begun = true;
        Ok(log)
    }

    /// Waits until all threads have ended, and stops them if they do not end in time. Returns the
    /// threads that have not ended. [`Run::threads`] does this for threads that it starts.
    pub fn wait(&self, limit: Duration) -> Vec<usize> {
        self.0.wait(limit);
        self.0.missing(&self.0.of_c.state())
    }

    /// Writes the log of each thread into a folder, which is made if it is missing, and `run.trace`
    /// if the order is known. Logs that an earlier run left there are removed.
    ///
    /// Drop each [`Log`] first. Of a thread that still has its own a comment takes the place of its
    /// moves, and the trace ends before the first of them.
    ///
    /// # Errors
    ///
    /// A file could not be written or removed.
    pub fn save(&self, folder: impl AsRef<Path>) -> Result<(), Error> {
        save::save(&self.0, folder.as_ref())
    }

    /// The trace of the run, if its order is known; else the header alone. The first line is a
    /// comment with a number, which all texts of the run have. It ends before the first move of a
    /// thread that still has its [`Log`].
    ///
    /// # Errors
    ///
    /// None, as long as there is memory for it.
    pub fn trace(&self) -> Result<String, Error> {
        let refused = || Error::Save {
            path: "the trace".into(),
            error: io::Error::from(io::ErrorKind::OutOfMemory),
        };
        save::trace(&self.0).ok_or_else(refused)
    }
}

/// The end of a thread: a panic of the work goes on, and a stop is no fault.
fn ended(handle: ScopedJoinHandle<'_, Result<(), Error>>) -> Result<(), Error> {
    match handle.join() {
        Ok(Err(Error::Stopped)) => Ok(()),
        Ok(result) => result,
        Err(payload) if payload.is::<Stopped>() => Ok(()),
        Err(payload) => panic::resume_unwind(payload),
    }
}

/// A thread's log of a run. Until it is dropped, it records what the thread does to its lock.
pub struct Log {
    recorder: Box<Recorder>,
    /// At which line of the schedule the next call is looked for.
    next_line: Cell<usize>,
    has_begun: bool,
    of_this_thread: PhantomData<*const ()>,
}

impl Log {
    /// The thread's number in the run.
    #[must_use]
    pub fn thread(&self) -> usize {
        self.recorder.thread
    }

    /// The thread's next call in the schedule that the run follows. Nothing after its last, and in
    /// other modes.
    ///
    /// ```
    /// use lockreplay_record::{call, AtomicU8, Call, Ending, Error, Mode, Run, Schedule, Word};
    /// use std::{sync::atomic::Ordering::SeqCst, time::Duration};
    ///
    /// let schedule: Schedule = "lock ticket threads 2\n0 acquire\n1 acquire\n0 add\n".parse()?;
    /// let next = AtomicU8::new(0).noted(Word::NextTicket);
    /// let setup = Run::builder(schedule.lock(), schedule.threads()).bits(8);
    /// let run = setup.mode(Mode::Follow(schedule)).open()?;
    /// let ending = run.threads(Duration::from_secs(10), |log| {
    ///     while let Some(due) = log.next_call() {
    ///         let _call = call(due);
    ///         next.load(SeqCst); // this lock is wrong
    ///     }
    /// })?;
    /// match ending {
    ///     Ending::Departed(departure) => {
    ///         assert_eq!(departure.to_string(), "line 4 is '0 add', and thread 0 made 'read'");
    ///     }
    ///     other => panic!("{other:?}"),
    /// }
    /// # Ok::<(), Error>(())
    /// ```
    pub fn next_call(&self) -> Option<Call> {
        let schedule = match &self.recorder.shared.mode {
            Mode::Follow(schedule) => schedule,
            _ => return None,
        };
        let (next, call) = schedule.call_of(self.thread(), self.next_line.get())?;
        self.next_line.set(next);
        Some(call)
    }
}

impl fmt::Debug for Log {
    fn fmt(&self, out: &mut fmt::Formatter<'_>) -> fmt::Result {
        out.debug_struct("Log").field("thread", &self.thread()).finish_non_exhaustive()
    }
}

impl Drop for Log {
    fn drop(&mut self) {
        let has_ended = self.has_begun && !thread::panicking();
        let Recorder { shared, thread, in_call, kept, .. } = &*self.recorder;
        recorder::remove();
        if !has_ended && in_call.get() {
            shared.in_call.fetch_or(1 << thread, Ordering::Relaxed);
        }
        if let (true, Some(kept)) = (has_ended, &mut *kept.borrow_mut()) {
            kept.keep(&format!("dropped {}\n", shared.of_c.counts(*thread).1));
        }
        drop(kept.take());
        self.recorder.leave(has_ended);
    }
}
