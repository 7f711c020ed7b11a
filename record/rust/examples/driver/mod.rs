//! What runs each example: threads that take its lock and give it back.
//!
//!     EXAMPLE free|noise|ordered|seed|pct|wakes THREADS ROUNDS SEED FOLDER [SECONDS]
//!     EXAMPLE follow SCHEDULES FOLDER
//!     EXAMPLE explore|explore-all THREADS ROUNDS PREEMPTIONS FOLDER [RUNS]
//!
//! `wakes` is `seed` with more spurious wakeups, and `explore-all` also makes runs that differ only
//! in the order of independent steps. The logs go to FOLDER. Of schedules that are
//! followed and of runs that are explored, the traces do; with the feature `check` these runs are
//! checked here, and the trace of one that is not well is all that is saved. Status: 0 all threads
//! ended, every schedule was followed, no run was refused; 1 some threads hang, after SECONDS (60)
//! or if a run hangs, and their logs end there, or a schedule was not followed, or a run was
//! refused; 2 usage; 3 memory, a thread, a read or a write was refused.
// SPDX-License-Identifier: Apache-2.0 OR MIT

mod explore;
mod follow;
mod rounds;

use std::env;
use std::fs;
use std::io;
use std::path::Path;
use std::process::ExitCode;
use std::str::FromStr;
use std::time::Duration;

use lockreplay_record::{Call, Ending, Error, Lock, Log, Mode, Run, RunBuilder};

const USAGE: &str =
    "usage: EXAMPLE free|noise|ordered|seed|pct|wakes THREADS ROUNDS SEED FOLDER [SECONDS]
       EXAMPLE follow SCHEDULES FOLDER
       EXAMPLE explore|explore-all THREADS ROUNDS PREEMPTIONS FOLDER [RUNS]";
/// A log has room for so many moves a round.
const MOST_MOVES: usize = 256;
/// With `wakes`, one turn in so many has a spurious wakeup.
const WAKES_ONE_IN: usize = 4;

/// A lock under test. Its default is a new one.
pub trait Tested: Default + Sync {
    const LOCK: Lock;
    /// The width of its counters.
    const BITS: u32;

    /// Makes one call of the lock.
    fn make(&self, thread: usize, call: Call);
}

/// What came of the runs: the status, and a sentence.
type Told = (u8, String);

/// The words of the command line.
struct Words(Vec<String>);

impl Words {
    fn text(&self, place: usize) -> Option<&str> {
        self.0.get(place).map(String::as_str)
    }

    fn number<T: FromStr>(&self, place: usize) -> Option<T> {
        self.text(place)?.parse().ok()
    }

    /// A number that may be missing.
    fn number_or<T: FromStr>(&self, place: usize, otherwise: T) -> Option<T> {
        match self.text(place) {
            Some(word) => word.parse().ok(),
            None => Some(otherwise),
        }
    }

    fn count(&self) -> usize {
        self.0.len()
    }
}

/// Does what the command line says.
pub fn drive<L: Tested>() -> ExitCode {
    let words = Words(env::args().skip(1).collect());
    let told = match words.text(0) {
        Some("follow") if words.count() == 3 => follow::from_words::<L>(&words),
        Some("explore" | "explore-all") if (5..=6).contains(&words.count()) => {
            explore::from_words::<L>(&words)
        }
        Some(mode) if (5..=6).contains(&words.count()) => record::<L>(mode, &words),
        _ => None,
    };
    let (status, said) = match told {
        Some(Ok(told)) => told,
        Some(Err(error)) => (3, error.to_string()),
        None => (2, USAGE.to_owned()),
    };
    if !said.is_empty() {
        eprintln!("{said}");
    }
    ExitCode::from(status)
}

/// Records one run in a mode; nothing, if the words do not say which.
fn record<L: Tested>(mode: &str, words: &Words) -> Option<Result<Told, Error>> {
    let (threads, rounds): (usize, usize) = (words.number(1)?, words.number(2)?);
    let seed = words.number(3)?;
    let wakes = mode == "wakes";
    let mode = match mode {
        "free" => Mode::Free,
        "noise" => Mode::Noise(seed),
        "ordered" => Mode::Ordered,
        "seed" | "wakes" => Mode::Seed(seed),
        "pct" => Mode::Pct { seed, depth: 3, steps: 1000 },
        _ => return None,
    };
    let folder = words.text(4)?;
    let limit = Duration::from_secs(words.number_or(5, 60)?);
    let is_real = !matches!(mode, Mode::Seed(_) | Mode::Pct { .. });
    let setup = setup::<L>(threads, rounds).mode(mode);
    let setup = if wakes { setup.spurious(WAKES_ONE_IN) } else { setup };
    Some(setup.open().and_then(|run| {
        let work = |lock: &L, log: &Log| rounds::of_thread(lock, log.thread(), rounds, is_real);
        let ending = run_new(&run, limit, work)?;
        run.save(folder)?;
        Ok(told(&ending))
    }))
}

fn setup<L: Tested>(threads: usize, rounds: usize) -> RunBuilder {
    Run::builder(L::LOCK, threads).bits(L::BITS).room(rounds.saturating_mul(MOST_MOVES))
}

/// Makes one run with a new lock.
fn run_new<L: Tested>(
    run: &Run,
    limit: Duration,
    work: impl Fn(&L, &Log) + Sync,
) -> Result<Ending, Error> {
    let lock = L::default();
    run.threads(limit, |log| work(&lock, log))
}

fn told(ending: &Ending) -> Told {
    match ending {
        Ending::Complete => (0, String::new()),
        Ending::Hangs(threads) => (1, format!("threads {threads:?} hang")),
        Ending::Stopped(threads) => (1, format!("the time was over for threads {threads:?}")),
        Ending::Departed(departure) => (1, departure.to_string()),
    }
}

/// Why a run is refused.
#[cfg(feature = "check")]
fn refusal(run: &Run) -> Option<String> {
    run.check().err().map(|error| error.to_string())
}

/// `locktrace check` says later whether a run is refused.
#[cfg(not(feature = "check"))]
fn refusal(_run: &Run) -> Option<String> {
    None
}

/// Returns why a run is refused, and saves its trace, unless it was checked and all is well.
fn judge(run: &Run, is_well: bool, folder: &Path, name: &str) -> Result<Option<String>, Error> {
    let refusal = refusal(run);
    if !is_well || refusal.is_some() || !cfg!(feature = "check") {
        save_trace(run, folder, name)?;
    }
    Ok(refusal)
}

/// Writes the trace of a run into a folder.
fn save_trace(run: &Run, folder: &Path, name: &str) -> Result<(), Error> {
    let path = folder.join(format!("{name}.trace"));
    let refused = |error: io::Error| Error::Save { path: path.clone(), error };
    fs::create_dir_all(folder).map_err(refused)?;
    fs::write(&path, run.trace()?).map_err(refused)
}
