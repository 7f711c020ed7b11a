//! Where a lock left the schedule that its run followed.
// SPDX-License-Identifier: Apache-2.0 OR MIT

use std::fmt;

use crate::engine::State;
use crate::moves;
use crate::schedule::{Line, Schedule};

/// Where a lock left the schedule that its run followed.
///
/// It is shown as a sentence: `line 12 is '1 write', and thread 1 made 'read'`.
#[derive(Clone, Debug, PartialEq, Eq)]
pub struct Departure {
    /// The line that was due; nothing after the last one.
    due: Option<Line>,
    thread: usize,
    did: Did,
}

/// The action of a thread in place of its line's move.
#[derive(Clone, Copy, Debug, PartialEq, Eq)]
enum Did {
    Make(u32),
    MakeNothing,
    End,
}

impl Departure {
    pub(crate) fn of(state: &State, schedule: &Schedule) -> Option<Departure> {
        let did = match state.did {
            0 => return None,
            1 => Did::MakeNothing,
            2 => Did::End,
            _ => Did::Make(state.word),
        };
        let due = schedule.lines().get(state.due as usize).copied();
        Some(Departure { due, thread: state.by as usize, did })
    }

    /// The thread that did something else.
    #[must_use]
    pub fn thread(&self) -> usize {
        self.thread
    }

    /// The line of the schedule that was due; nothing after the last one.
    #[must_use]
    pub fn line(&self) -> Option<usize> {
        self.due.map(|line| line.number as usize)
    }
}

impl fmt::Display for Departure {
    fn fmt(&self, out: &mut fmt::Formatter<'_>) -> fmt::Result {
        let thread = self.thread;
        if let Some(line) = self.due {
            let word = moves::word_of(u32::from(line.word));
            write!(out, "line {} is '{} {word}', and ", line.number, line.thread())?;
        }
        match self.did {
            Did::Make(word) => write!(out, "thread {thread} made '{}'", moves::word_of(word))?,
            Did::MakeNothing => write!(out, "thread {thread} makes no move")?,
            Did::End => write!(out, "thread {thread} has ended")?,
        }
        out.write_str(if self.due.is_none() { " after the last line" } else { "" })
    }
}
