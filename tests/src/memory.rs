//! Memory by the system's own calls: bytes right before a page that nobody may touch, and slices longer than a test
//! could fill, of which only the pages are there that are touched.

use std::ffi::c_void;
use std::ops::{Deref, DerefMut};
use std::{ptr, slice};

const PAGE: usize = 4096;

const NO_ACCESS: i32 = 0;
const READ_AND_WRITE: i32 = 1 | 2;
/// MAP_PRIVATE, MAP_ANONYMOUS and MAP_NORESERVE of Linux.
const ZEROS_ON_DEMAND: i32 = 0x02 | 0x20 | 0x4000;

extern "C" {
    fn mmap(place: *mut c_void, length: usize, access: i32, flags: i32, file: i32, offset: i64) -> *mut c_void;
    fn mprotect(place: *mut c_void, length: usize, access: i32) -> i32;
    fn munmap(place: *mut c_void, length: usize) -> i32;
}

/// Zeros. A page that is only read takes no memory, one that is written does from then on.
pub struct Vast {
    place: *mut u8,
    length: usize,
}

impl Vast {
    pub fn new(length: usize) -> Vast {
        // SAFETY: the system chooses a place that nothing else has.
        let place = unsafe { mmap(ptr::null_mut(), length, READ_AND_WRITE, ZEROS_ON_DEMAND, -1, 0) };
        assert!(place as isize != -1, "the system maps {length} bytes");
        Vast { place: place.cast(), length }
    }
}

// SAFETY: the bytes are mapped until they are dropped, and begin as zeros.
impl Deref for Vast {
    type Target = [u8];

    fn deref(&self) -> &[u8] {
        unsafe { slice::from_raw_parts(self.place, self.length) }
    }
}

impl DerefMut for Vast {
    fn deref_mut(&mut self) -> &mut [u8] {
        unsafe { slice::from_raw_parts_mut(self.place, self.length) }
    }
}

impl Drop for Vast {
    fn drop(&mut self) {
        // SAFETY: what `new` mapped.
        unsafe { munmap(self.place.cast(), self.length) };
    }
}

/// Some pages, and then one that can't be read or written: a call that goes on past what ends here ends the test.
pub struct Edge {
    memory: Vast,
    end: usize,
}

impl Edge {
    pub fn new(most: usize) -> Edge {
        let end = most.next_multiple_of(PAGE);
        let memory = Vast::new(end + PAGE);
        // SAFETY: the last page of what was just mapped, in which no slice is ever taken.
        let kept_out = unsafe { mprotect(memory.place.add(end).cast(), PAGE, NO_ACCESS) };
        assert_eq!(kept_out, 0, "a page behind the edge");
        Edge { memory, end }
    }

    /// These bytes, moved to the edge.
    pub fn lend(&mut self, bytes: &[u8]) -> &mut [u8] {
        // SAFETY: the pages before the one that is kept out.
        let pages = unsafe { slice::from_raw_parts_mut(self.memory.place, self.end) };
        let lent = &mut pages[self.end - bytes.len()..];
        lent.copy_from_slice(bytes);
        lent
    }
}
