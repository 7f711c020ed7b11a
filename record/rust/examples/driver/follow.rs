//! Follows every schedule of a folder, each with a new lock.
// SPDX-License-Identifier: Apache-2.0 OR MIT

use std::fs;
use std::io;
use std::path::{Path, PathBuf};
use std::time::Duration;

use lockreplay_record::{Ending, Error, Log, Mode, Run, Schedule};

use super::{judge, run_new, Tested, Told, Words};

const LIMIT: Duration = Duration::from_secs(10);

/// What `follow SCHEDULES FOLDER` does.
pub(super) fn from_words<L: Tested>(words: &Words) -> Option<Result<Told, Error>> {
    Some(follow_all::<L>(Path::new(words.text(1)?), Path::new(words.text(2)?)))
}

fn follow_all<L: Tested>(schedules: &Path, folder: &Path) -> Result<Told, Error> {
    let refused = |error| Error::Read { path: schedules.to_owned(), error };
    let (mut count, mut moves, mut missed) = (0, 0, 0);
    for path in schedules_of(schedules).map_err(refused)? {
        let schedule = Schedule::read(&path)?;
        count += 1;
        moves += schedule.moves();
        if let Some(said) = follow::<L>(schedule, &path, folder)? {
            missed += 1;
            eprintln!("{}: {said}", path.display());
        }
    }
    println!("{count} schedules of {moves} moves, {missed} not followed");
    Ok((u8::from(missed > 0), String::new()))
}

/// The schedules of a folder, by their names.
fn schedules_of(folder: &Path) -> io::Result<Vec<PathBuf>> {
    let paths: io::Result<Vec<PathBuf>> =
        fs::read_dir(folder)?.map(|entry| entry.map(|entry| entry.path())).collect();
    let is_schedule = |path: &PathBuf| path.extension().map_or(false, |it| it == "schedule");
    let mut found: Vec<PathBuf> = paths?.into_iter().filter(is_schedule).collect();
    found.sort();
    Ok(found)
}

/// Follows one schedule, and returns where the lock left it or why its run is refused.
fn follow<L: Tested>(
    schedule: Schedule,
    path: &Path,
    folder: &Path,
) -> Result<Option<String>, Error> {
    let setup = Run::builder(schedule.lock(), schedule.threads()).bits(L::BITS);
    let run = setup.room(schedule.moves() + 1).mode(Mode::Follow(schedule)).open()?;
    let make_calls = |lock: &L, log: &Log| {
        while let Some(call) = log.next_call() {
            lock.make(log.thread(), call);
        }
    };
    let ending = run_new(&run, LIMIT, make_calls)?;
    let name = path.file_stem().unwrap_or_default().to_string_lossy();
    let is_well = !matches!(ending, Ending::Departed(_));
    let refusal = judge(&run, is_well, folder, &name)?;
    Ok(match ending {
        Ending::Departed(departure) => Some(departure.to_string()),
        _ => refusal,
    })
}
