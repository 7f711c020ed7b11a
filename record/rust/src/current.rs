//! What a lock says into the log of the thread that runs.
// SPDX-License-Identifier: Apache-2.0 OR MIT

use std::panic::Location;

use crate::engine::Source;
use crate::moves::{Call, Outcome, Step, Word};
use crate::recorder::{place, with, Recorder};
pub(crate) use crate::waiters::Waiters;

/// The word that an atomic is, and its values in a trace.
pub(crate) struct Name<V> {
    word: Option<Word>,
    value_of: fn(V) -> u64,
}

impl<V> Name<V> {
    pub(crate) const fn none(value_of: fn(V) -> u64) -> Name<V> {
        Name { word: None, value_of }
    }

    pub(crate) const fn of(word: Word, value_of: fn(V) -> u64) -> Name<V> {
        Name { word: Some(word), value_of }
    }

    /// The same values, on this word.
    pub(crate) const fn on(&self, word: Word) -> Name<V> {
        Name::of(word, self.value_of)
    }

    pub(crate) fn word(&self) -> Option<Word> {
        self.word
    }

    pub(crate) fn value(&self, value: V) -> u64 {
        (self.value_of)(value)
    }
}

/// An operation and its notes, between which no other thread gets its turn.
#[derive(Debug)]
pub(crate) struct Turn {
    is_recorded: bool,
    source: Source,
}

/// Lets others go first, and begins an operation. It may be a step of the lock, or is none.
#[track_caller]
#[inline]
pub(crate) fn turn(may_be_step: bool) -> Turn {
    let source = Location::caller();
    Turn { is_recorded: with(|recorder| recorder.take_turn(may_be_step)).is_some(), source }
}

/// The same for an operation on an atomic.
///
/// # Panics
///
/// If it is the second one in a turn, as in an [`operation`] that is really two.
#[track_caller]
#[inline]
pub(crate) fn turn_of_atomic(may_be_step: bool) -> Turn {
    let turn = turn(may_be_step);
    let count = with(|recorder| {
        recorder.operations.set(recorder.operations.get() + 1);
        recorder.operations.get()
    });
    if count > Some(1) {
        panic!("two operations on atomics in one `operation`: other threads can come between them");
    }
    turn
}

/// Lets others go first.
pub(crate) fn pause() {
    let _turn = turn(false);
}

impl Turn {
    #[inline]
    pub(crate) fn is_recorded(&self) -> bool {
        self.is_recorded
    }

    /// Writes a step, made where the turn began.
    #[inline]
    pub(crate) fn note(&self, step: Step) {
        with(|recorder| recorder.note(&step.noted(self.source)));
    }
}

impl Drop for Turn {
    #[inline]
    fn drop(&mut self) {
        if self.is_recorded {
            place(Recorder::give_turn);
        }
    }
}

/// A call of the lock, from [`call`] until this is dropped.
#[derive(Debug)]
#[must_use = "the call ends when this is dropped: give it a name, as `_call`"]
pub struct InCall(());

/// Says that a call of the lock begins here. It ends when the guard is dropped.
///
/// ```
/// use lockreplay_record::{call, Call};
///
/// fn acquire() {
///     let _call = call(Call::Acquire);
///     // the steps of the call
/// }
/// # acquire();
/// ```
#[track_caller]
pub fn call(call: Call) -> InCall {
    let turn = turn(true);
    with(|recorder| {
        recorder.note(&call.noted(turn.source));
        recorder.in_call.set(true);
    });
    InCall(())
}

impl Drop for InCall {
    fn drop(&mut self) {
        with(|recorder| recorder.in_call.set(false));
        switch();
    }
}

/// Another thread may have its turn here, though no step was taken.
pub fn switch() {
    pause();
    with(Recorder::switched);
}

/// The step that is made touches what is at an address.
#[inline]
pub(crate) fn touch(address: usize, writes: bool) {
    with(|recorder| recorder.touch(address, writes));
}

/// An operation without a note was made at an address. One that changed nothing may be a poll.
pub(crate) fn unnoted(address: usize, changed: bool) {
    with(|recorder| recorder.unnoted(address, changed));
}

/// A look was made at an address, which in an [`operation`] is a part of that.
pub(crate) fn looked(address: usize) {
    if with(|recorder| recorder.depth.get()) == Some(1) {
        unnoted(address, false);
    }
}

/// Writes a step that the atomics cannot know of. The note belongs right after its operation, and
/// both belong into one [`operation`].
///
/// ```
/// use lockreplay_record::{note, operation, AtomicU32, Step, Word};
/// use std::sync::atomic::Ordering::SeqCst;
///
/// /// Both counters are halves of one word, so one operation is two steps.
/// fn take_ticket(both: &AtomicU32) -> (u32, u32) {
///     operation(|| {
///         let found = both.fetch_add(1 << 16, SeqCst);
///         note(Step::add(Word::NextTicket, u64::from(found >> 16)));
///         note(Step::read(Word::NowServing, u64::from(found & 0xFFFF)));
///         (found >> 16, found & 0xFFFF)
///     })
/// }
/// # assert_eq!(take_ticket(&AtomicU32::new(0x0005_0003)), (5, 3));
/// ```
#[track_caller]
pub fn note(step: Step) {
    let source = Location::caller();
    with(|recorder| recorder.note(&step.noted(source)));
}

/// Makes one operation of several parts, such as an atomic operation and its notes: no other thread
/// gets a turn within it. It must not wait for another thread.
///
/// # Panics
///
/// If a second operation on an atomic is made in it: then the parts are not one operation.
#[track_caller]
pub fn operation<R>(parts: impl FnOnce() -> R) -> R {
    let _turn = turn(true);
    parts()
}

/// Says that this MCS record is the thread's own from now on, and no other thread's.
///
/// A pointer to it, or into it, then has the value thread + 1 in a trace, and its words are those
/// of this thread. It may be on the stack, on the heap, in an array or from a pool, and another at
/// each call.
pub fn own_record<T: ?Sized>(record: &T) {
    let first = (record as *const T).cast::<u8>();
    let length = std::mem::size_of_val(record).max(1);
    with(|recorder| recorder.own(first, length));
}

/// The sections of a monitor, counted by all threads together.
#[derive(Debug)]
pub(crate) struct Sections(u64);

impl Sections {
    pub(crate) const fn none() -> Sections {
        Sections(0)
    }
}

/// A monitor that the thread is in, until this is dropped.
#[derive(Debug)]
pub(crate) struct Held(());

impl Held {
    /// The thread waits in the monitor, and is out of it meanwhile.
    pub(crate) fn end(self) {}
}

/// The thread has got a monitor.
pub(crate) fn hold() -> Held {
    with(|recorder| recorder.monitors.set(recorder.monitors.get() + 1));
    Held(())
}

impl Drop for Held {
    fn drop(&mut self) {
        with(|recorder| recorder.monitors.set(recorder.monitors.get().saturating_sub(1)));
    }
}

/// Notes the end of a monitor's section.
#[track_caller]
pub(crate) fn section(sections: &mut Sections, outcome: Outcome) {
    sections.0 += 1;
    let (count, source) = (sections.0, Location::caller());
    with(|recorder| recorder.note(&outcome.noted(count, source)));
}

/// By turns: waits until the thread is woken at an address.
pub(crate) fn sleep(address: usize) {
    touch(address, true);
    with(|recorder| recorder.park(address));
    touch(address, true);
}

/// By turns: wakes the threads that wait at an address, or one of them.
#[track_caller]
pub(crate) fn wake(address: usize, all: bool) {
    touch(address, true);
    let at: Source = Location::caller();
    with(|recorder| recorder.wake(address, all, at));
}

/// The thread's number in its run, if this thread records.
pub(crate) fn thread() -> Option<usize> {
    with(|recorder| recorder.thread)
}

/// Whether one thread runs at a time.
pub(crate) fn is_by_turns() -> bool {
    with(|recorder| recorder.is_by_turns).unwrap_or(false)
}

/// Unwinds if the run was stopped.
pub(crate) fn go_on() {
    with(Recorder::go_on);
}

/// The thread in whose record an address is, unless it is the own one.
pub(crate) fn other_owner_of(address: usize) -> Option<usize> {
    let found = with(|recorder| (recorder.owner_of(address), recorder.thread));
    found.filter(|(owner, own)| owner != own).map(|(owner, _)| owner)
}

/// A pointer's value in a trace: 0 is nil, and j + 1 is the record of thread j.
pub(crate) fn value_of(address: usize) -> u64 {
    match address {
        0 => 0,
        _ => with(|recorder| recorder.owner_of(address) as u64 + 1).unwrap_or(0),
    }
}
