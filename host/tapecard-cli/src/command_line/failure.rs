//! What can go wrong, said in a sentence on standard error.

use std::io::{self, Write};
use std::process::ExitCode;

use tapecard::{Device, Refusal};

#[derive(Debug)]
pub enum Failure {
    /// The command line is wrong: exit status 2.
    Usage(String),
    /// The work could not be done: exit status 1.
    Work(String),
    /// The card did other than what is proved of it: exit status 1, and a session ends there even at a terminal.
    Fault(String),
    /// The drive answered CHECK CONDITION, as its answer says: exit status 3.
    Answered,
    /// Standard output took no more of what was asked for: exit status 1.
    Output(io::Error),
    /// The work is done and kept, but standard output took no word of it: exit status 0.
    Untold { error: io::Error, done: String },
}

impl Failure {
    pub fn usage(sentence: impl Into<String>) -> Failure {
        Failure::Usage(sentence.into())
    }

    pub fn work(sentence: impl Into<String>) -> Failure {
        Failure::Work(sentence.into())
    }

    /// Says the sentence and gives the exit status.
    pub fn say(&self) -> ExitCode {
        let took_no_more = |e: &io::Error| format!("standard output took no more: {e}");
        let (sentence, status) = match self {
            Failure::Usage(sentence) => (sentence.clone(), 2),
            Failure::Work(sentence) | Failure::Fault(sentence) => (sentence.clone(), 1),
            Failure::Answered => return ExitCode::from(3),
            Failure::Output(e) => (took_no_more(e), 1),
            Failure::Untold { error, done } => (format!("{}; {done}", took_no_more(error)), 0),
        };
        complain(&sentence);
        ExitCode::from(status)
    }
}

/// One sentence on standard error; where that is closed there is nobody left to tell.
pub fn complain(sentence: &str) {
    let _ = writeln!(io::stderr(), "tapecard: {sentence}");
}

/// Only writes to standard output turn into a failure by `?`; errors of files are put into words where they arise.
impl From<io::Error> for Failure {
    fn from(error: io::Error) -> Failure {
        Failure::Output(error)
    }
}

impl From<Refusal> for Failure {
    fn from(refusal: Refusal) -> Failure {
        let advice = advice(refusal);
        Failure::work(format!("the drive gave {refusal}; nothing changed{advice}"))
    }
}

/// What to do about a refusal that no command puts into words of its own.
fn advice(refusal: Refusal) -> &'static str {
    match (refusal.number, refusal.device) {
        (2, _) => ". Take another copy of the image, or make one with tapecard new",
        // Who lends the buffer of a tape file and the index is the command, not its user.
        (4, Device::Exchange) => {
            ". The command lends the buffer itself, so it is not of one build with the archive: build both with make demo"
        }
        (9 | 10, _) => {
            ". The command makes the index itself, so it is not of one build with the archive: build both with make demo"
        }
        _ => "",
    }
}

#[cfg(test)]
mod tests {
    use super::*;

    #[test]
    fn a_refusal_says_what_was_wrong_and_what_to_do() {
        let of_the_index = ". The command makes the index itself, so it is not of one build with the archive: build both with \
                            make demo";
        let of_the_buffer = ". The command lends the buffer itself, so it is not of one build with the archive: build both with \
                             make demo";
        for (number, device, what_to_do) in [
            (
                2,
                Device::Stream,
                ". Take another copy of the image, or make one with tapecard new",
            ),
            (3, Device::Stream, ""),
            (4, Device::Stream, ""),
            (4, Device::Exchange, of_the_buffer),
            (9, Device::Stream, of_the_index),
            (10, Device::Stream, of_the_index),
        ] {
            let refusal = Refusal { number, device };
            let expected = format!("the drive gave {refusal}; nothing changed{what_to_do}");
            assert!(matches!(Failure::from(refusal), Failure::Work(said) if said == expected));
        }
    }
}
