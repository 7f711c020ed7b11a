//! A schedule that a run follows.
// SPDX-License-Identifier: Apache-2.0 OR MIT

use std::fs;
use std::path::Path;
use std::str::FromStr;
use std::sync::Arc;

use crate::error::Error;
use crate::lock::{Header, Lock, MOST_BITS};
use crate::moves::{self, Call};

/// Which thread moves next, and which move that is, for [`Mode::Follow`](crate::Mode::Follow).
///
/// Its clones share their lines. `docs/FORMATS.md` describes its text, which may be a trace; the
/// values of a trace are ignored.
///
/// ```
/// use lockreplay_record::{Error, Lock, Schedule};
///
/// let schedule: Schedule = "lock mcs threads 2\n0 acquire\n0 write\n".parse()?;
/// assert_eq!((schedule.lock(), schedule.threads()), (Lock::Mcs, 2));
/// let refused = "lock mcs threads 2\n2 acquire\n".parse::<Schedule>().unwrap_err();
/// assert_eq!(refused.to_string(), "line 2 is no line of a schedule");
/// # Ok::<(), Error>(())
/// ```
#[derive(Clone, Debug, PartialEq, Eq)]
pub struct Schedule {
    lock: Lock,
    threads: usize,
    /// The width of the counters, if the header says it.
    bits: Option<u32>,
    lines: Arc<[Line]>,
}

/// One move of a schedule, as the engine takes it.
#[derive(Clone, Copy, Debug, PartialEq, Eq)]
#[repr(C)]
pub(crate) struct Line {
    thread: u8,
    /// The number of its word.
    pub(crate) word: u8,
    /// In the text, from 1.
    pub(crate) number: u32,
}

impl Line {
    pub(crate) fn thread(&self) -> usize {
        usize::from(self.thread)
    }
}

impl Schedule {
    /// Reads a schedule from a file.
    ///
    /// # Errors
    ///
    /// The file could not be read, or is no schedule.
    pub fn read(path: impl AsRef<Path>) -> Result<Schedule, Error> {
        let path = path.as_ref();
        let refused = |error| Error::Read { path: path.to_owned(), error };
        let text = fs::read(path).map_err(refused)?;
        String::from_utf8_lossy(&text).parse() // comments may hold any bytes
    }

    /// The lock that it is of.
    #[must_use]
    pub fn lock(&self) -> Lock {
        self.lock
    }

    /// How many threads the run has.
    #[must_use]
    pub fn threads(&self) -> usize {
        self.threads
    }

    /// The width of the lock's counters, if the schedule says it. Else it is of any width.
    #[must_use]
    pub fn bits(&self) -> Option<u32> {
        self.bits
    }

    /// How many moves it has.
    #[must_use]
    pub fn moves(&self) -> usize {
        self.lines.len()
    }

    pub(crate) fn lines(&self) -> &[Line] {
        &self.lines
    }

    /// A number of its moves, for its runs.
    pub(crate) fn seed(&self) -> u64 {
        self.lines.iter().fold(0, |number, line| {
            let own = u64::from(line.thread) * 16 + u64::from(line.word);
            number.wrapping_mul(1_000_003).wrapping_add(own + 1)
        })
    }

    /// The first call of a thread in the lines from this one on, and the line after it.
    pub(crate) fn call_of(&self, thread: usize, from: usize) -> Option<(usize, Call)> {
        let lines = self.lines.iter().enumerate().skip(from);
        let mut own = lines.filter(|(_, line)| line.thread() == thread);
        own.find_map(|(at, line)| Some((at + 1, *Call::ALL.get(usize::from(line.word))?)))
    }

    /// Whether a run with this header can follow it.
    pub(crate) fn is_of(&self, header: &Header) -> bool {
        let bits = self.bits.unwrap_or(header.bits);
        (self.lock, self.threads, bits) == (header.lock, header.threads, header.bits)
    }
}

impl FromStr for Schedule {
    type Err = Error;

    fn from_str(text: &str) -> Result<Schedule, Error> {
        let mut lines = text.lines().enumerate().filter(|(_, line)| !is_comment(line));
        let (at, header) = lines.next().ok_or(Error::NoSchedule { line: 1 })?;
        let wrong = |at| Error::NoSchedule { line: at + 1 };
        let (lock, threads, bits) = header_of(header).ok_or_else(|| wrong(at))?;
        let moves: Result<Arc<[Line]>, Error> = lines
            .map(|(at, line)| move_of(line, at + 1, threads).ok_or_else(|| wrong(at)))
            .collect();
        Ok(Schedule { lock, threads, bits, lines: moves? })
    }
}

fn is_comment(line: &str) -> bool {
    line.is_empty() || line.starts_with('#')
}

/// Reads `lock NAME threads N`, or that with `bits B`.
fn header_of(line: &str) -> Option<(Lock, usize, Option<u32>)> {
    let words: Vec<&str> = line.split(' ').collect();
    let (name, threads, bits) = match words[..] {
        ["lock", name, "threads", threads] => (name, threads, None),
        ["lock", name, "threads", threads, "bits", bits] => (name, threads, Some(bits)),
        _ => return None,
    };
    let bits = match bits {
        Some(bits) => Some(bits.parse().ok()?),
        None => None,
    };
    let (lock, threads) = (name.parse().ok()?, threads.parse().ok()?);
    let header = Header { lock, threads, bits: bits.unwrap_or(MOST_BITS) };
    header.checked().ok().map(|_| (lock, threads, bits))
}

/// Reads `T WORD`, and ignores the further parts of a trace's line.
fn move_of(line: &str, number: usize, threads: usize) -> Option<Line> {
    let mut words = line.split(' ');
    let thread = words.next()?.parse().ok().filter(|&thread| usize::from(thread) < threads)?;
    let word = moves::number_of(words.next()?)?;
    Some(Line { thread, word, number: u32::try_from(number).ok()? })
}
