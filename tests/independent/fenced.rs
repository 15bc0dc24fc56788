//! Memory for a slice that lies flush against pages which may be neither read nor written, so that an access outside it is a
//! fault. Linux only, by the C library's mmap.

use std::ffi::c_void;
use std::slice::{from_raw_parts, from_raw_parts_mut};
use std::sync::atomic::{AtomicU64, Ordering};

extern "C" {
    fn mmap(at: *mut c_void, length: usize, protection: i32, flags: i32, file: i32, offset: i64) -> *mut c_void;
    fn mprotect(at: *mut c_void, length: usize, protection: i32) -> i32;
    fn signal(number: i32, handler: usize) -> usize;
    fn _exit(status: i32) -> !;
}

const NONE: i32 = 0;
const READ: i32 = 1;
const WRITE: i32 = 2;
const PRIVATE_ANONYMOUS: i32 = 0x22;
const PAGE: usize = 4096;

/// Room between two closed pages.
pub struct Fenced {
    room: *mut u8,
    length: usize,
}

impl Fenced {
    /// Room for slices of up to `most` bytes.
    pub fn new(most: usize) -> Fenced {
        let length = most.div_ceil(PAGE) * PAGE;
        // SAFETY: a new mapping, of which the first and the last page are closed
        unsafe {
            let start = mmap(std::ptr::null_mut(), length + 2 * PAGE, NONE, PRIVATE_ANONYMOUS, -1, 0) as *mut u8;
            assert!(start as isize != -1, "mmap failed");
            let room = start.add(PAGE);
            assert_eq!(mprotect(room.cast(), length, READ | WRITE), 0);
            Fenced { room, length }
        }
    }

    /// All of the room.
    pub fn all(&mut self) -> &mut [u8] {
        // SAFETY: the room is mapped for as long as the program runs
        unsafe { from_raw_parts_mut(self.room, self.length) }
    }

    pub fn view(&self) -> &[u8] {
        // SAFETY: as above
        unsafe { from_raw_parts(self.room, self.length) }
    }

    /// Where a slice of `n` bytes begins in the room: at its end, flush with the closed page there, or at its start.
    pub fn offset(&self, n: usize, at_end: bool) -> usize {
        if at_end {
            self.length - n
        } else {
            0
        }
    }

    /// Puts bytes into the room at such a place, closes it to writing, and gives the slice.
    pub fn place(&mut self, bytes: &[u8], at_end: bool) -> &[u8] {
        let from = self.offset(bytes.len(), at_end);
        // SAFETY: protection of pages that are this value's own
        unsafe {
            assert_eq!(mprotect(self.room.cast(), self.length, READ | WRITE), 0);
            self.all()[from..from + bytes.len()].copy_from_slice(bytes);
            assert_eq!(mprotect(self.room.cast(), self.length, READ), 0);
        }
        &self.view()[from..from + bytes.len()]
    }
}

/// The number of the case that runs, for the message when it faults.
pub static CASE: AtomicU64 = AtomicU64::new(0);

extern "C" fn fault(_: i32) {
    eprintln!("case {}: memory outside the slices was touched", CASE.load(Ordering::Relaxed));
    // SAFETY: ends the program
    unsafe { _exit(1) }
}

/// Says which case it was when memory outside the slices is touched.
pub fn report_faults() {
    for number in [7, 11] {
        // SAFETY: bus and segmentation faults end the program with a message
        unsafe { signal(number, fault as *const () as usize) };
    }
}
