//! Makes all runs of a few threads and rounds with at most so many preemptions.
// SPDX-License-Identifier: Apache-2.0 OR MIT

use std::path::Path;
use std::time::Duration;

use lockreplay_record::{Ending, Error, Explore, Log};

use super::{judge, rounds, run_new, setup, told, Tested, Told, Words};

const LIMIT: Duration = Duration::from_secs(10);
const MOST_RUNS: usize = 1_000_000;

/// What `explore THREADS ROUNDS PREEMPTIONS FOLDER [RUNS]` does, and `explore-all`.
pub(super) fn from_words<L: Tested>(words: &Words) -> Option<Result<Told, Error>> {
    let (threads, rounds) = (words.number(1)?, words.number(2)?);
    let (preemptions, folder) = (words.number(3)?, words.text(4)?);
    let most = words.number_or(5, MOST_RUNS)?;
    let setup = setup::<L>(threads, rounds).reduced(words.text(0)? == "explore");
    let runs = setup.explore(preemptions);
    Some(explore::<L>(runs, rounds, most, Path::new(folder)))
}

/// Makes each run, up to the first that hangs or is refused.
fn explore<L: Tested>(
    mut runs: Explore,
    rounds: usize,
    most: usize,
    folder: &Path,
) -> Result<Told, Error> {
    let (mut made, mut ending, mut refusal) = (0, Ending::Complete, None);
    let is_complete = loop {
        let run = match runs.next() {
            _ if made == most || ending != Ending::Complete || refusal.is_some() => break false,
            None => break true,
            Some(run) => run?,
        };
        let work = |lock: &L, log: &Log| rounds::of_thread(lock, log.thread(), rounds, false);
        ending = run_new(&run, LIMIT, work)?;
        made += 1;
        let is_well = ending == Ending::Complete;
        refusal = judge(&run, is_well, folder, &format!("{made:07}"))?;
    };
    let is_refused = ending != Ending::Complete || refusal.is_some();
    let all = match (is_complete, cfg!(feature = "check") && !is_refused) {
        (true, true) => "all of them accepted",
        (true, false) => "all of them",
        (false, true) => "all of them accepted, and there are more",
        (false, false) => "not all of them",
    };
    let but = if is_complete && runs.leaves_out_polls() { "repeated polls left out, " } else { "" };
    let preemptions = match runs.preemptions() {
        1 => "1 preemption".to_owned(),
        many => format!("{many} preemptions"),
    };
    println!("{made} run{} with up to {preemptions}, {but}{all}", if made == 1 { "" } else { "s" });
    Ok(refusal.map_or_else(|| told(&ending), |said| (1, said)))
}
