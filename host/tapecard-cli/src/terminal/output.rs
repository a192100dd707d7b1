//! Words on standard output, and what it means where they cannot be told.

use std::io::{ErrorKind, Write};

use crate::command_line::failure::Failure;

/// Shows what was asked for: it is the work itself. A reader that has seen enough, as `head`, is no failure.
pub fn show(out: &mut dyn Write, text: &[u8]) -> Result<(), Failure> {
    match out.write_all(text).and_then(|()| out.flush()) {
        Err(e) if e.kind() == ErrorKind::BrokenPipe => Ok(()),
        done => done.map_err(Failure::Output),
    }
}

/// Tells of work that is done: it stays done where nobody can be told.
pub fn tell_done(out: &mut dyn Write, text: &str, done: &str) -> Result<(), Failure> {
    let told = out.write_all(text.as_bytes()).and_then(|()| out.flush());
    told.map_err(|error| Failure::Untold {
        error,
        done: done.into(),
    })
}

/// Tells what a drive answered, once what it changed is kept.
pub fn tell_answers(out: &mut dyn Write, text: &mut Vec<u8>) -> Result<(), Failure> {
    let told = out.write_all(text).and_then(|()| out.flush());
    text.clear();
    told.map_err(|e| {
        Failure::work(format!(
            "standard output took no more: {e}; what was sent so far is kept"
        ))
    })
}
