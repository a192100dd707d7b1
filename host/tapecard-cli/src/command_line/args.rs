//! The words after a command's name: operands, flags and options with a value.

use std::ffi::{OsStr, OsString};
use std::ops::RangeInclusive;
use std::os::unix::ffi::OsStrExt;
use std::path::Path;

use crate::command_line::failure::Failure;
use crate::words;

/// The options that a command knows.
pub struct Options {
    pub flags: &'static [&'static str],
    pub valued: &'static [&'static str],
}

#[derive(Debug)]
pub struct Args {
    command: &'static str,
    operands: Vec<OsString>,
    given: Vec<(&'static str, OsString)>,
}

impl Args {
    pub fn parse(
        command: &'static str,
        options: &Options,
        words: &[OsString],
    ) -> Result<Args, Failure> {
        let mut args = Args {
            command,
            operands: Vec::new(),
            given: Vec::new(),
        };
        let mut rest = words.iter();
        while let Some(word) = rest.next() {
            if word == "--" {
                args.operands.extend(rest.by_ref().cloned());
            } else if looks_like_option(word) {
                args.take_option(options, word, &mut rest)?;
            } else {
                args.operands.push(word.clone());
            }
        }
        Ok(args)
    }

    fn take_option<'a>(
        &mut self,
        options: &Options,
        word: &OsStr,
        rest: &mut impl Iterator<Item = &'a OsString>,
    ) -> Result<(), Failure> {
        let (name, joined) = split_at_equals(word);
        let known = |names: &'static [&'static str]| names.iter().find(|n| name == **n).copied();
        let (option, value) = if let Some(flag) = known(options.flags) {
            if joined.is_some() {
                return Err(self.wrong(format!("{flag} takes no value")));
            }
            (flag, OsString::new())
        } else if let Some(option) = known(options.valued) {
            let value = joined.or_else(|| rest.next().map(OsString::as_os_str));
            let value = value.ok_or_else(|| self.wrong(format!("{option} needs a value")))?;
            (option, value.to_owned())
        } else {
            return Err(self.wrong(format!("there is no option {}", words::shown(name))));
        };
        if self.given(option).is_some() {
            return Err(self.wrong(format!("{option} is given twice")));
        }
        self.given.push((option, value));
        Ok(())
    }

    pub fn has(&self, flag: &str) -> bool {
        self.given(flag).is_some()
    }

    pub fn path(&self, option: &str) -> Option<&Path> {
        self.given(option).map(Path::new)
    }

    /// An option's number, held to its range.
    pub fn number(&self, option: &str, range: RangeInclusive<u32>) -> Result<Option<u32>, Failure> {
        let Some(value) = self.given(option) else {
            return Ok(None);
        };
        let number = value.to_str().and_then(words::number);
        match number.filter(|n| range.contains(n)) {
            Some(number) => Ok(Some(number)),
            None => Err(self.wrong(format!(
                "{option} takes a number from {} to {}, not {}",
                range.start(),
                range.end(),
                words::shown(value)
            ))),
        }
    }

    /// What an option's word stands for, one of these.
    pub fn choice<T: Copy>(
        &self,
        option: &str,
        choices: &[(&str, T)],
    ) -> Result<Option<T>, Failure> {
        let Some(value) = self.given(option) else {
            return Ok(None);
        };
        if let Some((_, chosen)) = choices.iter().find(|(word, _)| value == *word) {
            return Ok(Some(*chosen));
        }
        let known: Vec<&str> = choices.iter().map(|(word, _)| *word).collect();
        Err(self.wrong(format!(
            "{option} is {}, not {}",
            known.join(" or "),
            words::shown(value)
        )))
    }

    /// The operand at this place, which must be there.
    pub fn operand(&self, index: usize, name: &str) -> Result<&OsStr, Failure> {
        match self.operands.get(index) {
            Some(word) => Ok(word),
            None => Err(self.wrong(format!("{name} is missing"))),
        }
    }

    /// The operands from this place on.
    pub fn operands_from(&self, index: usize) -> &[OsString] {
        self.operands.get(index..).unwrap_or_default()
    }

    pub fn at_most(&self, count: usize) -> Result<(), Failure> {
        match self.operands.get(count) {
            Some(word) => Err(self.wrong(format!("{} is one word too many", words::shown(word)))),
            None => Ok(()),
        }
    }

    /// A failure of the command line, with where to look.
    pub fn wrong(&self, what: String) -> Failure {
        Failure::Usage(format!("{what}; see tapecard {} --help", self.command))
    }

    fn given(&self, option: &str) -> Option<&OsStr> {
        let found = self.given.iter().find(|(name, _)| *name == option);
        found.map(|(_, value)| value.as_os_str())
    }
}

/// A lone `-` is an operand: standard output.
fn looks_like_option(word: &OsStr) -> bool {
    word.as_bytes().starts_with(b"-") && word.len() > 1
}

fn split_at_equals(word: &OsStr) -> (&OsStr, Option<&OsStr>) {
    let bytes = word.as_bytes();
    match bytes.iter().position(|b| *b == b'=') {
        Some(at) => (
            OsStr::from_bytes(&bytes[..at]),
            Some(OsStr::from_bytes(&bytes[at + 1..])),
        ),
        None => (word, None),
    }
}

#[cfg(test)]
mod tests {
    use super::*;

    const OPTIONS: Options = Options {
        flags: &["--force"],
        valued: &["--blocks", "-o"],
    };

    fn parse(words: &[&str]) -> Result<Args, Failure> {
        let words: Vec<OsString> = words.iter().map(OsString::from).collect();
        Args::parse("try", &OPTIONS, &words)
    }

    fn sentence(words: &[&str]) -> String {
        match parse(words) {
            Err(Failure::Usage(sentence)) => sentence,
            other => format!("{other:?}"),
        }
    }

    #[test]
    fn options_stand_anywhere_and_join_their_value_or_not() {
        let args = parse(&["a", "--blocks=7", "-o", "-", "--force", "b"]).unwrap();
        assert_eq!(args.operands_from(0), ["a", "b"]);
        assert_eq!(args.number("--blocks", 1..=9).unwrap(), Some(7));
        assert_eq!(args.path("-o"), Some(Path::new("-")));
        assert!(args.has("--force"));
    }

    #[test]
    fn after_two_dashes_all_are_operands() {
        let args = parse(&["--", "--force", "--"]).unwrap();
        assert_eq!(args.operands_from(0), ["--force", "--"]);
        assert!(!args.has("--force"));
    }

    #[test]
    fn wrong_options_are_named() {
        let see = "see tapecard try --help";
        assert_eq!(
            sentence(&["--blocks"]),
            format!("--blocks needs a value; {see}")
        );
        assert_eq!(
            sentence(&["--force=1"]),
            format!("--force takes no value; {see}")
        );
        assert_eq!(sentence(&["--x"]), format!("there is no option --x; {see}"));
        assert_eq!(
            sentence(&["--force", "--force"]),
            format!("--force is given twice; {see}")
        );
    }

    #[test]
    fn a_choice_is_one_of_its_words() {
        let choices = [("few", 1), ("many", 2)];
        let args = parse(&["--blocks", "many"]).unwrap();
        assert_eq!(args.choice("--blocks", &choices).unwrap(), Some(2));
        assert_eq!(args.choice("-o", &choices).unwrap(), None);
        let args = parse(&["--blocks", "Few"]).unwrap();
        let wrong = args.choice("--blocks", &choices).unwrap_err();
        assert!(
            matches!(wrong, Failure::Usage(s) if s.starts_with("--blocks is few or many, not Few;"))
        );
    }

    #[test]
    fn numbers_are_held_to_their_range() {
        let args = parse(&["--blocks", "70000"]).unwrap();
        assert!(args.number("--blocks", 1..=65_535).is_err());
        assert_eq!(args.number("--missing", 1..=2).unwrap(), None);
    }
}
