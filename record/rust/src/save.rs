//! The texts of a run: a log of each thread, and the trace if the order is known.
// SPDX-License-Identifier: Apache-2.0 OR MIT

use std::fs::{self, File};
use std::io::{self, BufWriter, Write};
use std::path::Path;

use crate::engine::State;
use crate::error::Error;
use crate::kept::Kept;
use crate::lock::MOST_THREADS;
use crate::mode::Mode;
use crate::run::Shared;

const TRACE: &str = "run.trace";

fn name_of_log(thread: usize) -> String {
    format!("thread-{thread}.log")
}

fn refused(path: &Path, error: io::Error) -> Error {
    Error::Save { path: path.to_owned(), error }
}

/// Makes the folder, and removes what an earlier run left there: its trace, and its logs from a
/// thread on.
fn clear(folder: &Path, first: usize) -> Result<(), Error> {
    fs::create_dir_all(folder).map_err(|error| refused(folder, error))?;
    let stale = (first..MOST_THREADS).map(name_of_log).chain([TRACE.to_owned()]);
    for path in stale.map(|name| folder.join(name)) {
        remove(&path).map_err(|error| refused(&path, error))?;
    }
    Ok(())
}

/// Begins the log of each thread in a folder, where its tape goes on with it.
pub(crate) fn begin(run: &Shared, folder: &Path) -> Result<(), Error> {
    clear(folder, 0)?;
    let begun = (0..run.header.threads).map(|thread| {
        let path = folder.join(name_of_log(thread));
        let kept = Kept::begin(&path, head_of_log(run, thread).as_bytes());
        kept.map(Some).map_err(|error| refused(&path, error))
    });
    run.keep_in(begun.collect::<Result<_, _>>()?);
    Ok(())
}

/// Writes the files of a run, and removes those that an earlier one left. A thread that still keeps
/// its log there goes on with a file that has no name any more.
pub(crate) fn save(run: &Shared, folder: &Path) -> Result<(), Error> {
    let threads = run.header.threads;
    clear(folder, threads)?;
    for thread in 0..threads {
        let path = folder.join(name_of_log(thread));
        write_file(&path, |out| write_log(run, thread, out))
            .map_err(|error| refused(&path, error))?;
    }
    if !run.mode.has_order() {
        return Ok(());
    }
    let path = folder.join(TRACE);
    let written = write_file(&path, |out| {
        let text = trace(run).ok_or_else(|| io::Error::from(io::ErrorKind::OutOfMemory))?;
        out.write_all(text.as_bytes())?;
        write_ends(run, out)
    });
    written.map_err(|error| refused(&path, error))
}

fn remove(path: &Path) -> io::Result<()> {
    match fs::remove_file(path) {
        Err(error) if error.kind() != io::ErrorKind::NotFound => Err(error),
        _ => Ok(()),
    }
}

/// Writes a file, which gets its name when it is whole. So a full disk, or the end of the process,
/// leaves a log that was kept under this name.
fn write_file(
    path: &Path,
    write: impl FnOnce(&mut BufWriter<File>) -> io::Result<()>,
) -> io::Result<()> {
    let mut part = path.as_os_str().to_owned();
    part.push(".part");
    let written = write_part(Path::new(&part), write).and_then(|()| fs::rename(&part, path));
    if written.is_err() {
        drop(fs::remove_file(&part));
    }
    written
}

fn write_part(
    part: &Path,
    write: impl FnOnce(&mut BufWriter<File>) -> io::Result<()>,
) -> io::Result<()> {
    let mut out = BufWriter::new(File::create(part)?);
    write(&mut out)?;
    out.flush()
}

/// The header, after comments that identify the run and say how to repeat it.
fn head(run: &Shared) -> String {
    let seed = match run.mode {
        Mode::Seed(seed) => format!("# seed {seed}\n"),
        Mode::Pct { seed, depth, steps } => format!("# seed {seed} depth {depth} steps {steps}\n"),
        Mode::Noise(seed) => format!("# noise {seed}\n"),
        Mode::Free | Mode::Ordered | Mode::Follow(_) => String::new(),
    };
    let spurious = run.spurious.map_or_else(String::new, |one_in| format!("# spurious {one_in}\n"));
    let start = match run.start {
        0 => String::new(),
        start => format!("# counters began at {start}, here at 0\n"),
    };
    format!("# run {:016x}\n{seed}{spurious}{start}{}", run.of_c.state().number, run.header)
}

fn head_of_log(run: &Shared, thread: usize) -> String {
    format!("{} thread {thread}\n", head(run))
}

/// The words on a thread's end. If the run was stopped, it is unknown whether the thread would have
/// gone on.
fn end_of(state: &State, thread: usize) -> &'static str {
    if state.missing >> thread & 1 == 0 {
        "has ended"
    } else if state.has_hung != 0 && state.is_cut == 0 {
        "has not ended"
    } else {
        "was stopped"
    }
}

/// Which threads have ended, in comments after a trace's last move.
fn write_ends(run: &Shared, out: &mut impl Write) -> io::Result<()> {
    let state = run.of_c.state();
    (0..run.header.threads).try_for_each(|thread| match state.absent >> thread & 1 {
        0 => writeln!(out, "# thread {thread} {}", end_of(&state, thread)),
        _ => write_absence(thread, out),
    })
}

/// A thread's moves are not known as long as the thread itself has its log.
fn write_absence(thread: usize, out: &mut impl Write) -> io::Result<()> {
    writeln!(out, "# thread {thread} still has its log, so its moves are missing here")
}

/// A thread's log. It has a last line if the thread came to its end, else a comment that says so.
fn write_log(run: &Shared, thread: usize, out: &mut impl Write) -> io::Result<()> {
    let (state, (moves, dropped)) = (run.of_c.state(), run.of_c.counts(thread));
    out.write_all(head_of_log(run, thread).as_bytes())?;
    if state.absent >> thread & 1 == 1 {
        return write_absence(thread, out);
    }
    (0..moves).try_for_each(|at| writeln!(out, "{}", run.of_c.made(thread, at).0))?;
    if state.missing >> thread & 1 == 0 {
        writeln!(out, "dropped {dropped}")
    } else if dropped == 0 && !run.mode.has_order() {
        writeln!(out, "# thread {thread} has not ended")
    } else {
        writeln!(out, "# thread {thread} {}", end_of(&state, thread))
    }
}

/// The moves of all threads in their order, as far as the logs have them; nothing if memory is
/// refused.
pub(crate) fn trace(run: &Shared) -> Option<String> {
    run.of_c.trace(&(head(run) + "\n"), run.of_c.state().absent)
}
