//! The advisory lock of a file. It ends with the last handle of the file, so no run that died holds one.

use std::ffi::c_int;
use std::fs::File;
use std::io::{self, ErrorKind};
use std::os::fd::AsRawFd;

const EXCLUSIVE: c_int = 2;
const WITHOUT_WAITING: c_int = 4;

// SAFETY: the signature of flock(2).
unsafe extern "C" {
    fn flock(descriptor: c_int, operation: c_int) -> c_int;
}

/// Takes the lock; false where another handle has it.
pub fn try_lock(file: &File) -> io::Result<bool> {
    // SAFETY: the descriptor is open, since `file` is borrowed, and the call touches no memory.
    let answer = unsafe { flock(file.as_raw_fd(), EXCLUSIVE | WITHOUT_WAITING) };
    if answer == 0 {
        return Ok(true);
    }
    match io::Error::last_os_error() {
        error if error.kind() == ErrorKind::WouldBlock => Ok(false),
        error => Err(error),
    }
}
