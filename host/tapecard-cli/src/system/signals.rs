//! Signals that end the command, held back and taken by a thread: unlike a handler, it may lock, remove files and print.

use std::ffi::c_int;
use std::ptr;

pub const HANGUP: c_int = 1;
pub const INTERRUPT: c_int = 2;
pub const TERMINATE: c_int = 15;
/// A file grew beyond the limit that is set for this run.
pub const FILE_TOO_LARGE: c_int = 25;

const BLOCK: c_int = 0;
const UNBLOCK: c_int = 1;
const DEFAULT: usize = 0;
const IGNORED: usize = 1;

/// A set of signals, as large as the C library has it.
#[derive(Clone, Copy)]
#[repr(C, align(8))]
pub struct Signals([u8; 128]);

// SAFETY: the signatures of the C library; a handler is a pointer or one of two small numbers.
unsafe extern "C" {
    fn sigemptyset(set: *mut Signals) -> c_int;
    fn sigaddset(set: *mut Signals, signal: c_int) -> c_int;
    fn pthread_sigmask(how: c_int, set: *const Signals, before: *mut Signals) -> c_int;
    fn sigwait(set: *const Signals, signal: *mut c_int) -> c_int;
    fn signal(signal: c_int, handler: usize) -> usize;
    fn raise(signal: c_int) -> c_int;
}

impl Signals {
    /// Those of the list that whoever started this run has not set to be ignored, as nohup does.
    pub fn not_ignored(list: &[c_int]) -> Signals {
        let mut set = Signals([0; 128]);
        // SAFETY: `set` is as large as the C library's own, and is borrowed for each call alone.
        unsafe { sigemptyset(&mut set) };
        for number in list {
            // SAFETY: both handlers are values that signal(2) defines for every signal; the set is as above.
            unsafe {
                if signal(*number, DEFAULT) == IGNORED {
                    signal(*number, IGNORED);
                } else {
                    sigaddset(&mut set, *number);
                }
            }
        }
        set
    }

    /// Holds them back from this thread and from all that it starts.
    pub fn hold_back(&self) {
        // SAFETY: the set is only read, and a null pointer asks for no old set.
        unsafe { pthread_sigmask(BLOCK, self, ptr::null_mut()) };
    }

    /// Lets them through again, those that came meanwhile first.
    pub fn let_through(&self) {
        // SAFETY: the set is only read, and a null pointer asks for no old set.
        unsafe { pthread_sigmask(UNBLOCK, self, ptr::null_mut()) };
    }

    /// The next of them that comes.
    pub fn wait(&self) -> c_int {
        let mut number = 0;
        // SAFETY: the set is only read, and `number` is written.
        while unsafe { sigwait(self, &mut number) } != 0 {}
        number
    }

    /// Ends the process by this signal, as it would have ended without us.
    pub fn end_by(&self, number: c_int) {
        self.let_through();
        // SAFETY: the call touches no memory; a signal with its default ends the process.
        unsafe { raise(number) };
    }
}

/// Has the call that would bring this signal fail with an error instead.
pub fn ignore(number: c_int) {
    // SAFETY: to be ignored is a handler that signal(2) defines.
    unsafe { signal(number, IGNORED) };
}
