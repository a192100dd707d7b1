//! Lines typed on standard input or fed to it.

use std::io::{self, BufRead, BufReader, IsTerminal, Read, Write};

use crate::command_line::failure::Failure;
use crate::terminal::output;

/// Lines that are there already are answered together; a longer script in parts of this many bytes.
const AT_ONCE: usize = 64 * 1024;

/// Longer than any line of a script; what is no script would else fill the memory.
const LONGEST_LINE: u64 = 1024 * 1024;

/// What a line asks of the session.
#[derive(Clone, Copy, PartialEq, Eq)]
pub enum Flow {
    Goes,
    Ends,
}

/// A session that takes lines.
pub trait Session {
    /// The word before the line that is waited for.
    const PROMPT: &'static str;

    fn line(&mut self, line: &str, told: &mut dyn Write) -> Result<Flow, Failure>;

    /// Keeps on the disk what the lines so far have changed.
    fn keep(&mut self) -> Result<(), Failure>;
}

/// Hands each line that holds more than a comment to the session. What a line changed is kept before its answer is shown, so that
/// nothing that was answered is lost. On a terminal a bad line is told and the session goes on; in a script it ends the run.
pub fn run<S: Session>(session: &mut S, out: &mut dyn Write) -> Result<(), Failure> {
    let typed = io::stdin().is_terminal();
    let mut input = BufReader::with_capacity(AT_ONCE, io::stdin().lock());
    let mut told = Vec::new();
    for number in 1_u64.. {
        if !a_line_is_here(&input) {
            keep_and_tell(session, &mut told, out)?;
            prompt::<S>(typed, out)?;
        }
        let Some(line) = next_line(&mut input)? else {
            if typed {
                writeln!(out)?;
            }
            break;
        };
        let words = line.split('#').next().unwrap_or_default().trim();
        if words.is_empty() {
            continue;
        }
        match session.line(words, &mut told) {
            Ok(Flow::Goes) => {}
            Ok(Flow::Ends) => break,
            Err(Failure::Work(sentence)) if typed => writeln!(told, "{sentence}")?,
            Err(failure) => {
                keep_and_tell(session, &mut told, out)?;
                return Err(bad_line(number, failure));
            }
        }
    }
    keep_and_tell(session, &mut told, out)
}

pub fn keep_and_tell(
    session: &mut impl Session,
    told: &mut Vec<u8>,
    out: &mut dyn Write,
) -> Result<(), Failure> {
    session.keep()?;
    output::tell_answers(out, told)
}

fn a_line_is_here<R: Read>(input: &BufReader<R>) -> bool {
    input.buffer().contains(&b'\n')
}

fn prompt<S: Session>(typed: bool, out: &mut dyn Write) -> Result<(), Failure> {
    if typed {
        write!(out, "{}> ", S::PROMPT)?;
        out.flush()?;
    }
    Ok(())
}

fn bad_line(number: u64, failure: Failure) -> Failure {
    match failure {
        Failure::Work(sentence) | Failure::Fault(sentence) => Failure::work(format!(
            "line {number}: {sentence}; the script ends here, and what the lines before it did is kept"
        )),
        other => other,
    }
}

fn next_line(input: &mut impl BufRead) -> Result<Option<String>, Failure> {
    let mut bytes = Vec::new();
    match input.take(LONGEST_LINE).read_until(b'\n', &mut bytes) {
        Ok(0) => Ok(None),
        Ok(length) if length as u64 == LONGEST_LINE => Err(Failure::work(format!(
            "a line of standard input is longer than {LONGEST_LINE} bytes: that is no script; what the lines before it did \
             is kept"
        ))),
        Ok(_) => Ok(Some(String::from_utf8_lossy(&bytes).into_owned())),
        Err(e) => Err(Failure::work(format!(
            "standard input could not be read: {e}"
        ))),
    }
}
