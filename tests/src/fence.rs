//! Memory between two pages that nobody may touch: a step outside it ends the test at once.

use std::ffi::{c_char, c_void};
use std::fs::File;
use std::io::Write;
use std::os::fd::{AsRawFd, FromRawFd};
use std::slice::from_raw_parts_mut;

const PAGE: usize = 4096;
/// How many bytes of what is repeated stand in memory once.
const STRETCH: usize = 1 << 21;

const PROT_NONE: i32 = 0;
const PROT_READ_WRITE: i32 = 3;
/// MAP_PRIVATE, MAP_ANONYMOUS and MAP_NORESERVE: zeros, and no memory until they are touched.
const FLAGS: i32 = 0x02 | 0x20 | 0x4000;
/// MAP_PRIVATE, MAP_FIXED and MAP_NORESERVE: the bytes of a file in the place of what was there,
/// and memory only for the pages that are changed.
const FROM_FILE: i32 = 0x02 | 0x10 | 0x4000;

extern "C" {
    fn memfd_create(name: *const c_char, flags: u32) -> i32;
    fn mmap(at: *mut c_void, len: usize, prot: i32, flags: i32, fd: i32, from: i64) -> *mut c_void;
    fn mprotect(at: *mut c_void, len: usize, prot: i32) -> i32;
    fn munmap(at: *mut c_void, len: usize) -> i32;
}

/// Whole pages of memory with a fence before and after.
pub struct Fenced {
    fence: *mut u8,
    length: usize,
}

impl Fenced {
    /// At least so many bytes, all 0.
    pub fn new(at_least: usize) -> Self {
        let length = at_least.next_multiple_of(PAGE);
        // SAFETY: a new mapping touches no memory in use.
        let fence = unsafe {
            let nowhere = std::ptr::null_mut();
            mmap(nowhere, length + 2 * PAGE, PROT_NONE, FLAGS, -1, 0)
        };
        assert_ne!(fence as isize, -1, "the system gives {length} bytes");
        let fence = fence.cast::<u8>();
        // SAFETY: the pages lie within the new mapping.
        let opened = unsafe { mprotect(fence.add(PAGE).cast(), length, PROT_READ_WRITE) };
        assert_eq!(opened, 0, "the system opens {length} bytes");
        Fenced { fence, length }
    }

    /// At least so many bytes, the same few over and over.
    pub fn filled(at_least: usize, repeated: &[u8]) -> Self {
        let mut filled = Fenced::new(at_least.next_multiple_of(STRETCH));
        let file = stretch(repeated);
        for part in filled.whole().chunks_exact_mut(STRETCH) {
            let (at, fd) = (part.as_mut_ptr().cast(), file.as_raw_fd());
            // SAFETY: the part is ours, and whole pages.
            let mapped = unsafe { mmap(at, STRETCH, PROT_READ_WRITE, FROM_FILE, fd, 0) };
            assert_eq!(mapped, at, "the system puts the bytes there");
        }
        filled
    }

    /// All bytes.
    pub fn whole(&mut self) -> &mut [u8] {
        // SAFETY: the pages after the first are ours, readable and writable.
        unsafe { from_raw_parts_mut(self.fence.add(PAGE), self.length) }
    }

    /// The bytes right after the first fence.
    pub fn first(&mut self, count: usize) -> &mut [u8] {
        &mut self.whole()[..count]
    }

    /// The bytes right before the second fence.
    pub fn last(&mut self, count: usize) -> &mut [u8] {
        let start = self.length - count;
        &mut self.whole()[start..]
    }
}

/// A file without a name that holds a stretch of these bytes, repeated.
fn stretch(repeated: &[u8]) -> File {
    let count = STRETCH / repeated.len();
    assert_eq!(count * repeated.len(), STRETCH, "whole repetitions");
    // SAFETY: the name ends in 0.
    let opened = unsafe { memfd_create(c"stretch".as_ptr(), 0) };
    assert_ne!(opened, -1, "the system gives a file");
    // SAFETY: the file was just opened, for us alone.
    let mut file = unsafe { File::from_raw_fd(opened) };
    let written = file.write_all(&repeated.repeat(count));
    written.expect("room for a stretch");
    file
}

/// The bytes at one of the two fences.
pub type Side = fn(&mut Fenced, usize) -> &mut [u8];

pub const SIDES: [Side; 2] = [Fenced::first, Fenced::last];

impl Drop for Fenced {
    fn drop(&mut self) {
        // SAFETY: the mapping is ours, and no slice of it outlives this.
        unsafe { munmap(self.fence.cast(), self.length + 2 * PAGE) };
    }
}

/// Fenced bytes as a list of places; whole ones must begin and end at the ends of the bytes.
pub fn as_places(bytes: &mut [u8]) -> &mut [usize] {
    // SAFETY: every pattern of bytes is a number.
    let (before, places, after) = unsafe { bytes.align_to_mut::<usize>() };
    assert!(before.is_empty() && after.is_empty(), "a list is aligned");
    places
}
