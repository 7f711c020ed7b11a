//! The ways of runs that are explored: those that were taken, and those that are still to be tried.
// SPDX-License-Identifier: Apache-2.0 OR MIT
#![allow(unsafe_code)]

use std::os::raw::{c_int, c_uint};
use std::ptr::{self, NonNull};
use std::slice;

use crate::engine::{CSearch, CWay, RunOfC};

extern "C" {
    fn lr_new_search(most: c_uint) -> *mut CSearch;
    fn lr_free_search(search: *mut CSearch);
    fn lr_next_way(search: *mut CSearch) -> *mut CWay;
    fn lr_level_of(search: *const CSearch) -> c_uint;
    fn lr_lacks_memory(search: *const CSearch) -> c_int;
    fn lr_choices_of(way: *mut CWay, length: *mut usize) -> *const u8;
    fn lr_drop_way(way: *mut CWay);
}

/// The ways that are still to be tried.
#[derive(Debug)]
pub(crate) struct Search(NonNull<CSearch>);

/// A way that was taken from a search: the choices with which a run begins.
#[derive(Debug)]
pub(crate) struct Way(Option<NonNull<CWay>>);

// SAFETY: nothing of a search or a way is of one thread.
unsafe impl Send for Search {}
unsafe impl Sync for Search {}
unsafe impl Send for Way {}
unsafe impl Sync for Way {}

impl Search {
    /// `None` if memory is refused.
    pub(crate) fn new(most: usize) -> Option<Search> {
        let most = c_uint::try_from(most).unwrap_or(c_uint::MAX - 1);
        // SAFETY: it takes a number.
        NonNull::new(unsafe { lr_new_search(most) }).map(Search)
    }

    pub(crate) fn next_way(&mut self) -> Option<Way> {
        // SAFETY: the search is whole.
        NonNull::new(unsafe { lr_next_way(self.0.as_ptr()) }).map(|way| Way(Some(way)))
    }

    pub(crate) fn level(&self) -> usize {
        // SAFETY: the search is whole.
        unsafe { lr_level_of(self.0.as_ptr()) as usize }
    }

    /// Adds what else could have been chosen in a run that began with this way. Returns whether
    /// there was memory for it.
    pub(crate) fn add_others(&mut self, run: &RunOfC, way: &Way) -> bool {
        let way = way.0.map_or(ptr::null(), |way| way.as_ptr() as *const CWay);
        // SAFETY: the run is over, so nobody else looks at it.
        unsafe {
            if let Some(add) = run.engine().add_others {
                add(self.0.as_ptr(), run.run.as_ptr(), way);
            }
            lr_lacks_memory(self.0.as_ptr()) == 0
        }
    }
}

impl Drop for Search {
    fn drop(&mut self) {
        // SAFETY: nobody has the search any more; a way keeps what it needs.
        unsafe { lr_free_search(self.0.as_ptr()) };
    }
}

impl Way {
    /// The way of the first run: nothing is chosen.
    pub(crate) const fn first() -> Way {
        Way(None)
    }

    pub(crate) fn choices(&self) -> &[u8] {
        let mut length = 0;
        match self.0 {
            // SAFETY: the way has so many choices, as long as it is there.
            Some(way) => unsafe {
                slice::from_raw_parts(lr_choices_of(way.as_ptr(), &mut length), length)
            },
            None => &[],
        }
    }
}

impl Drop for Way {
    fn drop(&mut self) {
        if let Some(way) = self.0 {
            // SAFETY: nobody else has the way.
            unsafe { lr_drop_way(way.as_ptr()) };
        }
    }
}
