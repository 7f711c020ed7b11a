//! A move of a thread, and its line in a log or a trace (docs/FORMATS.md).
// SPDX-License-Identifier: Apache-2.0 OR MIT

use std::fmt;

#[cfg(feature = "record")]
use crate::engine::{Noted, Source, FOUND_TOO, LEFT_TOO, OWN};

/// The numbers of the engine: of the first step, of a section, and of the parts of a move.
#[cfg(feature = "record")]
const READ: u32 = 7;
#[cfg(feature = "record")]
const SECTION: u32 = READ + 5;
#[cfg(feature = "record")]
const DONE: u32 = 3;
#[cfg(feature = "record")]
const FAILED: u32 = 4;

/// A call of a lock.
#[derive(Clone, Copy, Debug, PartialEq, Eq)]
pub enum Call {
    /// Takes a ticket or MCS lock.
    Acquire,
    /// Gives a ticket or MCS lock back.
    Release,
    /// Takes a read-write lock to read.
    ReadLock,
    /// Gives back what [`Call::ReadLock`] or [`Call::Downgrade`] gave.
    ReadUnlock,
    /// Takes a read-write lock to write.
    WriteLock,
    /// Gives back what [`Call::WriteLock`] gave.
    WriteUnlock,
    /// Makes a reader of a writer.
    Downgrade,
}

/// A shared word of a ticket or MCS lock.
#[derive(Clone, Copy, Debug, PartialEq, Eq)]
pub enum Word {
    /// The ticket that the next thread takes.
    NextTicket,
    /// The ticket that is served.
    NowServing,
    /// The last record of the MCS queue.
    Tail,
    /// The successor of an MCS record.
    Next,
    /// Whether the thread of an MCS record waits.
    Locked,
}

/// The words of steps in a schedule, by their numbers.
#[cfg(feature = "record")]
const STEPS: [&str; 6] = [
    // generated: steps
    "read", "write", "swap", "cas", "add", "section",
    // end
];

/// The number of a word of a schedule.
#[cfg(feature = "record")]
pub(crate) fn number_of(word: &str) -> Option<u8> {
    let calls = Call::ALL.into_iter().map(Call::name);
    calls.chain(STEPS).position(|name| name == word).map(|at| at as u8)
}

/// The word that has a number.
#[cfg(feature = "record")]
pub(crate) fn word_of(number: u32) -> &'static str {
    let mut all = Call::ALL.into_iter().map(Call::name).chain(STEPS);
    all.nth(number as usize).unwrap_or("")
}

/// What a section of a monitor did.
#[derive(Clone, Copy, Debug, PartialEq, Eq)]
pub enum Outcome {
    /// The thread is to wait.
    Waits,
    /// A FIFO writer has set its flag, and waits for the readers that are inside.
    Moved,
    /// The thread has the lock.
    Entered,
    /// The thread has given the lock back.
    Left,
}

/// One operation on a word, with what it found and left there: what [`note`](crate::note) writes.
///
/// The atomics of this crate make their steps themselves.
///
/// ```
/// use lockreplay_record::{Step, Word};
///
/// assert_eq!(Step::add(Word::NextTicket, 5).to_string(), "add next_ticket found 5");
/// assert_eq!(Step::cas(Word::Tail, false).to_string(), "cas tail failed");
/// assert_eq!(Step::write(Word::Locked, 0).of(2).to_string(), "write locked of 2 left 0");
/// ```
#[derive(Clone, Copy, Debug, PartialEq, Eq)]
#[must_use = "a step is written by `note`"]
pub struct Step {
    operation: Operation,
    word: Word,
    owner: Option<usize>,
    found: Option<u64>,
    left: Option<u64>,
}

#[derive(Clone, Copy, Debug, PartialEq, Eq)]
enum Operation {
    Read,
    Write,
    Swap,
    Add,
    Cas { wrote: bool },
}

impl Step {
    /// A load, which found this.
    pub const fn read(word: Word, found: u64) -> Step {
        Step::new(Operation::Read, word).with_found(found)
    }

    /// A store of this.
    pub const fn write(word: Word, left: u64) -> Step {
        Step::new(Operation::Write, word).with_left(left)
    }

    /// A swap, which found this.
    pub const fn swap(word: Word, found: u64) -> Step {
        Step::new(Operation::Swap, word).with_found(found)
    }

    /// A fetch-and-add, which found this.
    pub const fn add(word: Word, found: u64) -> Step {
        Step::new(Operation::Add, word).with_found(found)
    }

    /// A compare-and-swap, and whether it wrote.
    pub const fn cas(word: Word, wrote: bool) -> Step {
        Step::new(Operation::Cas { wrote }, word)
    }

    /// The word is in the record of this thread. Else `next` and `locked` are the own record's.
    pub const fn of(self, thread: usize) -> Step {
        Step { owner: Some(thread), ..self }
    }

    /// The value that the operation found.
    pub const fn with_found(self, found: u64) -> Step {
        Step { found: Some(found), ..self }
    }

    /// The value that the operation left.
    pub const fn with_left(self, left: u64) -> Step {
        Step { left: Some(left), ..self }
    }

    /// The step as the engine takes it.
    #[cfg(feature = "record")]
    #[inline]
    pub(crate) fn noted(&self, source: Source) -> Noted {
        let (word, end) = match self.operation {
            Operation::Read => (READ, 0),
            Operation::Write => (READ + 1, 0),
            Operation::Swap => (READ + 2, 0),
            Operation::Cas { wrote: true } => (READ + 3, DONE),
            Operation::Cas { wrote: false } => (READ + 3, FAILED),
            Operation::Add => (READ + 4, 0),
        };
        let found = if self.found.is_some() { FOUND_TOO } else { 0 };
        let left = if self.left.is_some() { LEFT_TOO } else { 0 };
        Noted {
            found: self.found.unwrap_or(0),
            left: self.left.unwrap_or(0),
            place: (source as *const std::panic::Location<'static>).cast(),
            word,
            on: self.word as u32 + 1,
            owner: self.owner.map_or(OWN, |thread| thread as u32),
            part: end | found | left,
        }
    }

    const fn new(operation: Operation, word: Word) -> Step {
        Step { operation, word, owner: None, found: None, left: None }
    }
}

/// A move without a step.
#[cfg(feature = "record")]
fn bare(word: u32, part: u32, count: u64, source: Source) -> Noted {
    let place = (source as *const std::panic::Location<'static>).cast();
    Noted { found: count, left: 0, place, word, on: 0, owner: OWN, part }
}

#[cfg(feature = "record")]
impl Outcome {
    /// The end of a section as the engine takes it.
    pub(crate) fn noted(self, count: u64, source: Source) -> Noted {
        let part = match self {
            Outcome::Moved => 5,
            Outcome::Waits => 6,
            Outcome::Entered => 7,
            Outcome::Left => 8,
        };
        bare(SECTION, part, count, source)
    }
}

impl Call {
    /// All calls.
    #[cfg(feature = "record")]
    pub(crate) const ALL: [Call; 7] = [
        // generated: calls
        Call::Acquire,
        Call::Release,
        Call::ReadLock,
        Call::ReadUnlock,
        Call::WriteLock,
        Call::WriteUnlock,
        Call::Downgrade,
        // end
    ];

    /// The call as the engine takes it.
    #[cfg(feature = "record")]
    pub(crate) fn noted(self, source: Source) -> Noted {
        bare(self as u32, 0, 0, source)
    }

    /// The call's word in a trace.
    pub(crate) fn name(self) -> &'static str {
        match self {
            // generated: calls
            Call::Acquire => "acquire",
            Call::Release => "release",
            Call::ReadLock => "rlock",
            Call::ReadUnlock => "runlock",
            Call::WriteLock => "wlock",
            Call::WriteUnlock => "wunlock",
            Call::Downgrade => "downgrade",
            // end
        }
    }
}

impl fmt::Display for Call {
    fn fmt(&self, out: &mut fmt::Formatter<'_>) -> fmt::Result {
        out.write_str(self.name())
    }
}

impl fmt::Display for Word {
    fn fmt(&self, out: &mut fmt::Formatter<'_>) -> fmt::Result {
        out.write_str(match self {
            // generated: places
            Word::NextTicket => "next_ticket",
            Word::NowServing => "now_serving",
            Word::Tail => "tail",
            Word::Next => "next",
            Word::Locked => "locked",
            // end
        })
    }
}

impl fmt::Display for Outcome {
    fn fmt(&self, out: &mut fmt::Formatter<'_>) -> fmt::Result {
        out.write_str(match self {
            // generated: outcomes
            Outcome::Moved => "moved",
            Outcome::Waits => "waits",
            Outcome::Entered => "entered",
            Outcome::Left => "left",
            // end
        })
    }
}

impl fmt::Display for Operation {
    fn fmt(&self, out: &mut fmt::Formatter<'_>) -> fmt::Result {
        out.write_str(match self {
            Operation::Read => "read",
            Operation::Write => "write",
            Operation::Swap => "swap",
            Operation::Add => "add",
            Operation::Cas { .. } => "cas",
        })
    }
}

impl fmt::Display for Step {
    fn fmt(&self, out: &mut fmt::Formatter<'_>) -> fmt::Result {
        write!(out, "{} {}", self.operation, self.word)?;
        if let Some(owner) = self.owner {
            write!(out, " of {owner}")?;
        }
        if let Some(found) = self.found {
            write!(out, " found {found}")?;
        }
        if let Some(left) = self.left {
            write!(out, " left {left}")?;
        }
        match self.operation {
            Operation::Cas { wrote: true } => out.write_str(" done"),
            Operation::Cas { wrote: false } => out.write_str(" failed"),
            _ => Ok(()),
        }
    }
}
