//! A run that is interrupted leaves no unfinished file behind, and says what it kept.

use std::ffi::c_int;
use std::fs;
use std::io::{self, IsTerminal, Write};
use std::path::{Path, PathBuf};
use std::process;
use std::sync::{Mutex, MutexGuard, PoisonError, mpsc};
use std::thread;
use std::time::Duration;

use crate::command_line::failure::complain;
use crate::system::signals::{self, FILE_TOO_LARGE, HANGUP, INTERRUPT, Signals, TERMINATE};
use crate::words;

const A_MOMENT: Duration = Duration::from_millis(500);

/// What an interrupt has to know. Whoever changes a file's name holds this, so that an interrupt comes before or after it.
#[derive(Default)]
pub struct Unfinished {
    /// The file that is being written beside the one it will replace.
    pub part: Option<PathBuf>,
    kept: Vec<String>,
}

static UNFINISHED: Mutex<Unfinished> = Mutex::new(Unfinished {
    part: None,
    kept: Vec::new(),
});

pub fn unfinished() -> MutexGuard<'static, Unfinished> {
    UNFINISHED.lock().unwrap_or_else(PoisonError::into_inner)
}

impl Unfinished {
    /// This file has its new content.
    pub fn is_kept(&mut self, path: &Path) {
        let name = words::shown(path);
        if !self.kept.contains(&name) {
            self.kept.push(name);
        }
    }

    fn told(&self) -> String {
        match self.kept.as_slice() {
            [] => "interrupted; nothing was changed".into(),
            kept => format!(
                "interrupted; what was done before is kept in {}",
                kept.join(", ")
            ),
        }
    }
}

/// Watches for the signals that end a run: from a terminal, a kill, or a line that hung up.
pub fn watch() {
    signals::ignore(FILE_TOO_LARGE);
    let signals = Signals::not_ignored(&[HANGUP, INTERRUPT, TERMINATE]);
    signals.hold_back();
    let watching = thread::Builder::new().spawn(move || end_by(signals.wait(), &signals));
    if watching.is_err() {
        // No thread is to be had: a signal ends the run as it would any other.
        signals.let_through();
    }
}

fn end_by(number: c_int, signals: &Signals) {
    // Never let go: the run must not rename its part now.
    let unfinished = unfinished();
    if let Some(part) = &unfinished.part {
        let _ = fs::remove_file(part);
    }
    say_in_a_moment(unfinished.told());
    signals.end_by(number);
    process::exit(1);
}

/// Nobody may be reading standard error: that must not keep the run from ending.
fn say_in_a_moment(sentence: String) {
    let (said, done) = mpsc::channel();
    let saying = thread::Builder::new().spawn(move || {
        if io::stderr().is_terminal() {
            // The line has the terminal's own mark of the interrupt.
            let _ = writeln!(io::stderr());
        }
        complain(&sentence);
        let _ = said.send(());
    });
    if saying.is_ok() {
        let _ = done.recv_timeout(A_MOMENT);
    }
}
