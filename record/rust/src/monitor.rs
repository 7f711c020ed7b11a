//! A monitor whose sections can be noted: a mutex and a condition variable.
// SPDX-License-Identifier: Apache-2.0 OR MIT

use std::fmt;
use std::ops::{Deref, DerefMut};
use std::sync::{self, LockResult, PoisonError, TryLockError, TryLockResult};
use std::thread;
use std::time::Duration;

use crate::current::{self, Held, Sections, Waiters};
use crate::moves::Outcome;

/// How often a thread that waits looks whether its run was stopped.
const LOOK: Duration = Duration::from_millis(100);

/// A mutex of the standard library, with the same operations, that counts the sections of a
/// monitor. A thread of a run that was stopped does not poison it for others.
///
/// ```
/// use lockreplay_record::{call, Call, Condvar, Mutex, Outcome};
///
/// struct State {
///     readers: u64,
///     writer: bool,
/// }
///
/// static STATE: Mutex<State> = Mutex::new(State { readers: 0, writer: false });
/// static CHANGED: Condvar = Condvar::new();
///
/// fn read_lock() {
///     let _call = call(Call::ReadLock);
///     let mut state = STATE.lock().unwrap();
///     while state.writer {
///         state.note(Outcome::Waits);
///         state = CHANGED.wait(state).unwrap();
///     }
///     state.readers += 1;
///     state.note(Outcome::Entered);
/// }
/// # read_lock();
/// ```
pub struct Mutex<T> {
    plain: sync::Mutex<Counted<T>>,
}

struct Counted<T> {
    data: T,
    sections: Sections,
}

/// The contents of a [`Mutex`], until this is dropped.
#[must_use = "the section ends when this is dropped"]
pub struct MutexGuard<'a, T> {
    plain: sync::MutexGuard<'a, Counted<T>>,
    mutex: &'a Mutex<T>,
    held: Held,
}

/// A condition variable for a [`Mutex`].
///
/// With one thread at a time a thread that waits runs again when it is notified, or has a [spurious
/// wakeup](crate::RunBuilder::spurious) now and then. So a run in which a notification is missing
/// hangs.
#[derive(Debug, Default)]
pub struct Condvar {
    plain: sync::Condvar,
    waiters: Waiters,
}

impl<T> Mutex<T> {
    /// A mutex with this in it.
    #[must_use]
    pub const fn new(data: T) -> Mutex<T> {
        Mutex { plain: sync::Mutex::new(Counted { data, sections: Sections::none() }) }
    }

    /// Waits until no other thread has the mutex, and takes it.
    ///
    /// # Errors
    ///
    /// Another thread panicked while it had the mutex.
    pub fn lock(&self) -> LockResult<MutexGuard<'_, T>> {
        while current::is_by_turns() {
            let _turn = current::turn(true);
            current::touch(self.address(), true);
            match self.plain.try_lock() {
                Ok(plain) => return self.guard(Ok(plain)),
                Err(TryLockError::Poisoned(error)) => return self.guard(Err(error)),
                Err(TryLockError::WouldBlock) => current::unnoted(self.address(), false),
            }
        }
        current::pause();
        self.guard(self.plain.lock())
    }

    /// Takes the mutex, if no other thread has it.
    ///
    /// # Errors
    ///
    /// Another thread has it, or panicked while it had it.
    pub fn try_lock(&self) -> TryLockResult<MutexGuard<'_, T>> {
        let _turn = current::turn(true);
        current::touch(self.address(), true);
        match self.plain.try_lock() {
            Ok(plain) => self.guard(Ok(plain)).map_err(TryLockError::Poisoned),
            Err(TryLockError::Poisoned(error)) => {
                self.guard(Err(error)).map_err(TryLockError::Poisoned)
            }
            Err(TryLockError::WouldBlock) => {
                current::unnoted(self.address(), false);
                Err(TryLockError::WouldBlock)
            }
        }
    }

    /// Whether a thread panicked while it had the mutex.
    pub fn is_poisoned(&self) -> bool {
        self.plain.is_poisoned()
    }

    /// The contents of the mutex, which nobody else can have now.
    ///
    /// # Errors
    ///
    /// A thread panicked while it had the mutex.
    pub fn get_mut(&mut self) -> LockResult<&mut T> {
        match self.plain.get_mut() {
            Ok(counted) => Ok(&mut counted.data),
            Err(error) => Err(PoisonError::new(&mut error.into_inner().data)),
        }
    }

    /// The contents of the mutex.
    ///
    /// # Errors
    ///
    /// A thread panicked while it had the mutex.
    pub fn into_inner(self) -> LockResult<T> {
        match self.plain.into_inner() {
            Ok(counted) => Ok(counted.data),
            Err(error) => Err(PoisonError::new(error.into_inner().data)),
        }
    }

    /// A thread that unwinds may take the mutex to give its lock back: it hears of no panic.
    fn guard<'a>(
        &'a self,
        plain: LockResult<sync::MutexGuard<'a, Counted<T>>>,
    ) -> LockResult<MutexGuard<'a, T>> {
        if plain.is_err() {
            current::go_on(); // a thread that was stopped while it had the mutex has not panicked
        }
        let is_poisoned = plain.is_err() && !thread::panicking();
        let plain = plain.unwrap_or_else(PoisonError::into_inner);
        let guard = MutexGuard { plain, mutex: self, held: current::hold() };
        if is_poisoned {
            Err(PoisonError::new(guard))
        } else {
            Ok(guard)
        }
    }

    fn address(&self) -> usize {
        (self as *const Mutex<T>).cast::<u8>() as usize
    }
}

impl<T> MutexGuard<'_, T> {
    /// Notes that a section of the monitor ends here, and what it did. A section is from getting
    /// the mutex to leaving it or waiting in it.
    #[track_caller]
    pub fn note(&mut self, outcome: Outcome) {
        current::section(&mut self.plain.sections, outcome);
    }
}

impl Condvar {
    /// A condition variable.
    #[must_use]
    pub const fn new() -> Condvar {
        Condvar { plain: sync::Condvar::new(), waiters: Waiters::none() }
    }

    /// Leaves the mutex, waits until another thread notifies, and takes the mutex again.
    ///
    /// # Errors
    ///
    /// Another thread panicked while it had the mutex.
    pub fn wait<'a, T>(&self, guard: MutexGuard<'a, T>) -> LockResult<MutexGuard<'a, T>> {
        let MutexGuard { plain, mutex, held } = guard;
        held.end();
        if current::is_by_turns() {
            drop(plain);
            current::sleep(self.address());
            return mutex.lock();
        }
        if let Some(thread) = current::thread() {
            return mutex.guard(Ok(self.wait_for_real(plain, thread)));
        }
        mutex.guard(self.plain.wait(plain))
    }

    /// Waits as long as the condition holds.
    ///
    /// # Errors
    ///
    /// Another thread panicked while it had the mutex.
    pub fn wait_while<'a, T>(
        &self,
        guard: MutexGuard<'a, T>,
        mut condition: impl FnMut(&mut T) -> bool,
    ) -> LockResult<MutexGuard<'a, T>> {
        let mut guard = guard;
        while condition(&mut guard) {
            guard = self.wait(guard)?;
        }
        Ok(guard)
    }

    /// Wakes one of the threads that wait.
    #[track_caller]
    pub fn notify_one(&self) {
        current::wake(self.address(), false);
        if self.waiters.notify(false) {
            self.plain.notify_all(); // each looks whether it is the one
        } else {
            self.plain.notify_one();
        }
    }

    /// Wakes the threads that wait.
    #[track_caller]
    pub fn notify_all(&self) {
        current::wake(self.address(), true);
        self.waiters.notify(true);
        self.plain.notify_all();
    }

    /// Waits until the thread is notified, and looks now and then whether the run was stopped.
    fn wait_for_real<'a, T>(
        &self,
        plain: sync::MutexGuard<'a, Counted<T>>,
        thread: usize,
    ) -> sync::MutexGuard<'a, Counted<T>> {
        let (waiter, mut plain) = (self.waiters.add(thread), plain);
        while !waiter.is_notified() {
            let woken = self.plain.wait_timeout(plain, LOOK);
            plain = woken.unwrap_or_else(PoisonError::into_inner).0;
            current::go_on();
        }
        plain
    }

    fn address(&self) -> usize {
        self as *const Condvar as usize
    }
}

impl<T> Deref for MutexGuard<'_, T> {
    type Target = T;

    fn deref(&self) -> &T {
        &self.plain.data
    }
}

impl<T> DerefMut for MutexGuard<'_, T> {
    fn deref_mut(&mut self) -> &mut T {
        &mut self.plain.data
    }
}

impl<T: Default> Default for Mutex<T> {
    fn default() -> Mutex<T> {
        Mutex::new(T::default())
    }
}

impl<T> From<T> for Mutex<T> {
    fn from(data: T) -> Mutex<T> {
        Mutex::new(data)
    }
}

impl<T: fmt::Debug> fmt::Debug for MutexGuard<'_, T> {
    fn fmt(&self, out: &mut fmt::Formatter<'_>) -> fmt::Result {
        self.plain.data.fmt(out)
    }
}

impl<T> fmt::Debug for Mutex<T> {
    fn fmt(&self, out: &mut fmt::Formatter<'_>) -> fmt::Result {
        out.debug_struct("Mutex").finish_non_exhaustive()
    }
}
