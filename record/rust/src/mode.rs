//! How the threads of a run are scheduled, and what that gives.
// SPDX-License-Identifier: Apache-2.0 OR MIT

use crate::schedule::Schedule;

/// How the threads run, and whether the order of their moves is known.
///
/// | Mode | Who runs | What [`Run::save`](crate::Run::save) writes | Checked by |
/// |---|---|---|---|
/// | `Free` | all, as they like | a log of each thread | `locktrace order` |
/// | `Noise` | all, and they are held up at times | the same | `locktrace order` |
/// | `Ordered` | all, one operation at a time | the same, and `run.trace` | `locktrace check` |
/// | `Seed` | one at a time, by turns | the same, and `run.trace` | `locktrace check` |
/// | `Pct` | one at a time, by priorities | the same, and `run.trace` | `locktrace check` |
/// | `Follow` | one at a time, as a schedule says | the same, and `run.trace` | `locktrace check` |
///
/// [`RunBuilder::explore`](crate::RunBuilder::explore) makes all runs with few preemptions.
#[derive(Clone, Debug, PartialEq, Eq)]
pub enum Mode {
    /// The threads run as they like, and each writes into memory of its own: recording adds no
    /// synchronization.
    Free,
    /// As `Free`, but before one operation in eight a thread yields, sleeps for up to 0.1 ms or
    /// spins, by numbers of this seed. That makes rare interleavings less rare. A run cannot be
    /// repeated, since the threads are real.
    Noise(u64),
    /// Each operation and its note are made under one mutex, so their order is known. It is slower
    /// and more orderly than a real run.
    Ordered,
    /// One thread runs at a time. Before each operation on an atomic, even one that is not noted, a
    /// number of this seed says which thread is next. The same seed gives the same run, as long as
    /// nothing else in it depends on time or chance.
    Seed(u64),
    /// As `Seed`, but threads have drawn priorities, and the running thread gets the lowest at
    /// `depth - 1` drawn turns. So a thread may be held up for long. If `depth` orderings between
    /// steps are enough for a mistake, a run of n threads and k turns notices it with a probability
    /// of at least 1 / (n k^(depth - 1)) (Burckhardt and others, ASPLOS 2010).
    Pct {
        /// The seed of all draws.
        seed: u64,
        /// How many orderings are enough for the mistakes that are looked for; 1 or more.
        depth: usize,
        /// About how many turns a run has, the k above: [`Run::turns`](crate::Run::turns).
        steps: usize,
    },
    /// Each line of this schedule is the turn of its thread, and has to be the move that the thread
    /// makes. [`Log::next_call`](crate::Log::next_call) gives each thread its calls, so one driver
    /// serves every schedule. A move that is not the line's [ends](crate::Ending::Departed) the
    /// run. Each poll is written, and notifications decide nothing: a thread that waits in a
    /// monitor looks again when the schedule says so.
    Follow(Schedule),
}

impl Mode {
    /// Whether the moves of all threads are in one order.
    pub(crate) fn has_order(&self) -> bool {
        !matches!(self, Mode::Free | Mode::Noise(_))
    }

    /// Whether one thread runs at a time.
    pub(crate) fn is_by_turns(&self) -> bool {
        self.has_order() && *self != Mode::Ordered
    }

    pub(crate) fn noise(&self) -> Option<u64> {
        match self {
            Mode::Noise(seed) => Some(*seed),
            _ => None,
        }
    }

    /// The seed of a mode that draws turns.
    pub(crate) fn seed(&self) -> Option<u64> {
        match self {
            Mode::Seed(seed) | Mode::Pct { seed, .. } => Some(*seed),
            _ => None,
        }
    }
}
