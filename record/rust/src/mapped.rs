//! A part of a file as memory: what is stored there is in the file, whatever ends the process.
//!
//! The standard library has no such memory, and the crate needs no other crate. So the two calls
//! of the C library are declared here, for systems on which these are their types.
// SPDX-License-Identifier: Apache-2.0 OR MIT
#![allow(unsafe_code)]

use std::fmt;
use std::fs::File;
use std::io;
use std::ptr::NonNull;
use std::slice;
use std::sync::atomic::{AtomicU8, Ordering};

/// Bytes of a file, until this is dropped. They are atomic, since others may look at the file.
pub(crate) struct Part {
    first: NonNull<AtomicU8>,
    length: usize,
}

// SAFETY: it owns its memory, which no thread needs to have mapped itself.
unsafe impl Send for Part {}

impl Part {
    fn bytes(&self) -> &[AtomicU8] {
        // SAFETY: these bytes are mapped as long as this is there.
        unsafe { slice::from_raw_parts(self.first.as_ptr(), self.length) }
    }

    /// Writes a line over bytes that are all `#`. Its first byte is stored last, so the line is a
    /// comment, as what follows it, until it is whole.
    pub(crate) fn put(&self, at: usize, line: &[u8]) {
        let places = self.bytes().get(at..).unwrap_or_default();
        for (place, &byte) in places.iter().zip(line).skip(1) {
            place.store(byte, Ordering::Relaxed);
        }
        if let (Some(place), Some(&byte)) = (places.first(), line.first()) {
            place.store(byte, Ordering::Release);
        }
    }
}

impl fmt::Debug for Part {
    fn fmt(&self, out: &mut fmt::Formatter<'_>) -> fmt::Result {
        write!(out, "{} bytes", self.length)
    }
}

#[cfg(not(all(target_os = "linux", target_pointer_width = "64")))]
impl Part {
    pub(crate) fn of(_: &File, _: u64, _: usize) -> io::Result<Part> {
        Err(io::ErrorKind::Unsupported.into())
    }
}

#[cfg(all(target_os = "linux", target_pointer_width = "64"))]
mod system {
    use super::{io, AtomicU8, File, NonNull, Part};
    use std::os::raw::{c_int, c_void};
    use std::os::unix::io::AsRawFd;
    use std::ptr;

    const READ_AND_WRITE: c_int = 3;
    const SHARED: c_int = 1;

    extern "C" {
        fn mmap(
            address: *mut c_void,
            length: usize,
            access: c_int,
            kind: c_int,
            file: c_int,
            first: i64,
        ) -> *mut c_void;
        fn munmap(address: *mut c_void, length: usize) -> c_int;
    }

    impl Part {
        /// The bytes from `first` on, a multiple of 65,536. The file has to have them before the
        /// first is stored, and as long as this is there: else that store ends the process.
        pub(crate) fn of(file: &File, first: u64, length: usize) -> io::Result<Part> {
            let (nowhere, file) = (ptr::null_mut(), file.as_raw_fd());
            // SAFETY: without an address the system chooses one where this process has nothing.
            let memory =
                unsafe { mmap(nowhere, length, READ_AND_WRITE, SHARED, file, first as i64) };
            match NonNull::new(memory.cast::<AtomicU8>()) {
                Some(first) if memory as isize != -1 => Ok(Part { first, length }),
                _ => Err(io::Error::last_os_error()),
            }
        }
    }

    impl Drop for Part {
        fn drop(&mut self) {
            // SAFETY: `of` mapped these bytes, and nobody else unmaps them.
            unsafe { munmap(self.first.as_ptr().cast::<c_void>(), self.length) };
        }
    }
}
