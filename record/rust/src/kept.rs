//! The file that has a thread's log while its run goes on.
//!
//! The log's end is memory that is mapped to the file, where a line costs a few stores. Whatever
//! ends the process leaves whole lines and a comment: bytes that no line has yet are all `#`. Where
//! the system refuses the memory, each line is a write.
// SPDX-License-Identifier: Apache-2.0 OR MIT

use std::fs::{File, OpenOptions};
use std::io::{self, Seek, SeekFrom, Write};
use std::path::{Path, PathBuf};

use crate::mapped::Part;

/// How much the file grows at a time: a multiple of every system's pages, and more than a line has.
const PIECE: u64 = 1 << 16;

#[derive(Debug)]
pub(crate) struct Kept {
    path: PathBuf,
    file: File,
    /// The part of the file in which the log goes on: two pieces, in the first of which it ends.
    part: Option<Part>,
    length: u64,
    /// Whether a line was refused: then the log has no further ones.
    is_full: bool,
}

impl Kept {
    /// Begins a log in a new file: another run may still have an older one of this name.
    pub(crate) fn begin(path: &Path, head: &[u8]) -> io::Result<Kept> {
        let mut file = OpenOptions::new().read(true).write(true).create_new(true).open(path)?;
        file.write_all(head)?;
        let mut kept = Kept {
            path: path.to_owned(),
            file,
            part: None,
            length: head.len() as u64,
            is_full: false,
        };
        kept.go_on()?;
        Ok(kept)
    }

    /// Adds a line, if none was refused. Says why one is.
    pub(crate) fn keep(&mut self, line: &str) {
        if self.is_full {
            return;
        }
        if let Err(error) = self.put(line) {
            eprintln!("lockreplay_record: {}: {error}", self.path.display());
            self.is_full = true;
        }
    }

    /// Adds a line. If the process is killed meanwhile, the file has all of it or nothing.
    fn put(&mut self, line: &str) -> io::Result<()> {
        let part = match &self.part {
            Some(part) => part,
            None => return self.file.write_all(line.as_bytes()),
        };
        part.put((self.length % PIECE) as usize, line.as_bytes());
        let before = self.length / PIECE;
        self.length += line.len() as u64;
        if self.length / PIECE == before {
            return Ok(());
        }
        self.go_on()
    }

    /// Maps the part in which the log ends. If the system refuses it, each line is a write from now
    /// on, which is refused once there is no room for the line.
    fn go_on(&mut self) -> io::Result<()> {
        self.part = None;
        self.part = self.next_part().ok();
        match self.part {
            Some(_) => Ok(()),
            None => self.trim(),
        }
    }

    /// The bytes are written first: with a hole in place of them, a full disk would end the
    /// process at one of the stores.
    fn next_part(&mut self) -> io::Result<Part> {
        let first = self.length - self.length % PIECE;
        let part = Part::of(&self.file, first, 2 * PIECE as usize)?;
        let missing = first + 2 * PIECE - self.file.seek(SeekFrom::End(0))?;
        self.file.write_all(&vec![b'#'; missing as usize])?;
        Ok(part)
    }

    /// Takes away what no line has.
    fn trim(&mut self) -> io::Result<()> {
        self.file.set_len(self.length)?;
        self.file.seek(SeekFrom::End(0)).map(drop)
    }
}

impl Drop for Kept {
    fn drop(&mut self) {
        if self.part.take().is_some() {
            drop(self.trim()); // else the comment stays
        }
    }
}
