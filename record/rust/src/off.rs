//! The items of `current`, if nothing is recorded: nothing is left of them.
// SPDX-License-Identifier: Apache-2.0 OR MIT

use std::marker::PhantomData;

use crate::moves::{Call, Outcome, Step, Word};

/// No word of a lock.
pub(crate) struct Name<V>(PhantomData<fn(V)>);

impl<V> Name<V> {
    #[inline]
    pub(crate) const fn none(_value_of: fn(V) -> u64) -> Name<V> {
        Name(PhantomData)
    }

    #[inline]
    pub(crate) const fn of(_word: Word, _value_of: fn(V) -> u64) -> Name<V> {
        Name(PhantomData)
    }

    #[inline]
    pub(crate) const fn on(&self, _word: Word) -> Name<V> {
        Name(PhantomData)
    }

    #[inline]
    pub(crate) fn word(&self) -> Option<Word> {
        None
    }

    #[inline]
    pub(crate) fn value(&self, _value: V) -> u64 {
        0
    }
}

/// No count.
pub(crate) struct Sections;

impl Sections {
    #[inline]
    pub(crate) const fn none() -> Sections {
        Sections
    }
}

/// A monitor that the thread is in.
pub(crate) struct Held;

impl Held {
    #[inline]
    pub(crate) fn end(self) {}
}

#[inline]
pub(crate) fn hold() -> Held {
    Held
}

/// No threads of a run.
#[derive(Debug, Default)]
pub(crate) struct Waiters;

/// No thread waits.
pub(crate) struct Waiter;

impl Waiters {
    #[inline]
    pub(crate) const fn none() -> Waiters {
        Waiters
    }

    #[inline]
    pub(crate) fn add(&self, _thread: usize) -> Waiter {
        Waiter
    }

    #[inline]
    pub(crate) fn notify(&self, _all: bool) -> bool {
        false
    }
}

impl Waiter {
    #[inline]
    pub(crate) fn is_notified(&self) -> bool {
        true
    }
}

/// An operation.
pub(crate) struct Turn;

impl Turn {
    #[inline]
    pub(crate) fn is_recorded(&self) -> bool {
        false
    }

    #[inline]
    pub(crate) fn note(&self, _step: Step) {}
}

/// A call of the lock.
#[derive(Debug)]
#[must_use = "the call ends when this is dropped: give it a name, as `_call`"]
pub struct InCall(());

/// Says that a call of the lock begins here.
#[inline]
pub fn call(_call: Call) -> InCall {
    InCall(())
}

/// Another thread may have its turn here, in a run that is recorded.
#[inline]
pub fn switch() {}

/// Writes a step, in a run that is recorded.
#[inline]
pub fn note(_step: Step) {}

/// One operation of several parts.
#[inline]
pub fn operation<R>(parts: impl FnOnce() -> R) -> R {
    parts()
}

/// Says that this MCS record is the thread's own from now on.
#[inline]
pub fn own_record<T: ?Sized>(_record: &T) {}

#[inline]
pub(crate) fn turn(_may_be_step: bool) -> Turn {
    Turn
}

#[inline]
pub(crate) fn turn_of_atomic(_may_be_step: bool) -> Turn {
    Turn
}

#[inline]
pub(crate) fn pause() {}

#[inline]
pub(crate) fn touch(_address: usize, _writes: bool) {}

#[inline]
pub(crate) fn unnoted(_address: usize, _changed: bool) {}

#[inline]
pub(crate) fn looked(_address: usize) {}

#[inline]
pub(crate) fn section(_sections: &mut Sections, _outcome: Outcome) {}

#[inline]
pub(crate) fn sleep(_address: usize) {}

#[inline]
pub(crate) fn wake(_address: usize, _all: bool) {}

#[inline]
pub(crate) fn thread() -> Option<usize> {
    None
}

#[inline]
pub(crate) fn is_by_turns() -> bool {
    false
}

#[inline]
pub(crate) fn go_on() {}

#[inline]
pub(crate) fn other_owner_of(_address: usize) -> Option<usize> {
    None
}

#[inline]
pub(crate) fn value_of(_address: usize) -> u64 {
    0
}
