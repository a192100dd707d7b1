//! Pages of memory of which the first can be closed for writing: a store into them, be it of the same byte, ends the test.

use std::ffi::{c_int, c_void};
use std::ptr;
use std::slice;

/// Bytes of a page on every x86-64.
pub const PAGE: usize = 4096;

const PROTECT_READ: c_int = 1;
const PROTECT_WRITE: c_int = 2;
const MAP_PRIVATE: c_int = 2;
const MAP_ANONYMOUS: c_int = 0x20;
const SEGMENTATION_FAULT: c_int = 11;
const STANDARD_ERROR: c_int = 2;
const TOLD: &[u8] = b"a byte was written in a page that is closed for writing\n";

// SAFETY: the signatures of the C library on 64-bit Linux.
unsafe extern "C" {
    fn mmap(
        address: *mut c_void,
        length: usize,
        protection: c_int,
        flags: c_int,
        file: c_int,
        offset: i64,
    ) -> *mut c_void;
    fn munmap(address: *mut c_void, length: usize) -> c_int;
    fn mprotect(address: *mut c_void, length: usize, protection: c_int) -> c_int;
    fn signal(number: c_int, handler: extern "C" fn(c_int)) -> usize;
    fn write(file: c_int, bytes: *const u8, length: usize) -> isize;
    fn _exit(status: c_int) -> !;
}

/// Says what happened and ends the run; both calls are allowed in a handler.
extern "C" fn tell_and_end(_: c_int) {
    // SAFETY: the bytes are a constant's, with their length.
    unsafe {
        write(STANDARD_ERROR, TOLD.as_ptr(), TOLD.len());
        _exit(1)
    }
}

pub struct Pages {
    start: *mut u8,
    length: usize,
}

impl Pages {
    pub fn new(pages: usize) -> Pages {
        let length = pages * PAGE;
        let protection = PROTECT_READ + PROTECT_WRITE;
        // SAFETY: new memory at an address of the system's choice; the handler uses only what a handler may use.
        let start = unsafe {
            signal(SEGMENTATION_FAULT, tell_and_end);
            let flags = MAP_PRIVATE + MAP_ANONYMOUS;
            mmap(ptr::null_mut(), length, protection, flags, -1, 0)
        };
        assert!(start as isize != -1, "memory for {pages} pages");
        Pages {
            start: start.cast(),
            length,
        }
    }

    /// From now on the first pages are only read.
    pub fn close_first(&mut self, pages: usize) {
        assert!(pages * PAGE <= self.length);
        // SAFETY: whole pages of this memory, which no one else has.
        let done = unsafe { mprotect(self.start.cast(), pages * PAGE, PROTECT_READ) };
        assert_eq!(done, 0, "pages can be closed for writing");
    }

    /// All of them; who writes to those that are closed ends the run.
    pub fn bytes_mut(&mut self) -> &mut [u8] {
        // SAFETY: the memory is there as long as `self`, which is borrowed; new pages hold zeros.
        unsafe { slice::from_raw_parts_mut(self.start, self.length) }
    }
}

impl Drop for Pages {
    fn drop(&mut self) {
        // SAFETY: the memory that `new` got, to which no borrow is left.
        unsafe { munmap(self.start.cast(), self.length) };
    }
}
