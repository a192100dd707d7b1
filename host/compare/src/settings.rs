//! What the environment says about a run.

use std::env;
use std::io::Write;

const SEED: u64 = 0x0157_0117;

/// The seed of a run: `TAPECARD_SEED`, in decimal or as 0x.., or the fixed one.
pub fn seed_wanted() -> u64 {
    or_panic(seed_in(&variable("TAPECARD_SEED")))
}

/// The calls to make for each drive: `TAPECARD_CALLS`, or as many as the test says.
pub fn calls_wanted(usual: u64) -> u64 {
    or_panic(calls_in(&variable("TAPECARD_CALLS"), usual))
}

/// A line that is shown even where a test's output is kept back.
pub fn say(line: &str) {
    let mut out = std::io::stdout().lock();
    let _ = writeln!(out, "{line}");
}

/// Empty where it is not set.
fn variable(name: &str) -> String {
    env::var(name).unwrap_or_default()
}

fn or_panic<T>(wanted: Result<T, String>) -> T {
    wanted.unwrap_or_else(|sentence| panic!("{sentence}"))
}

fn seed_in(text: &str) -> Result<u64, String> {
    match text {
        "" => Ok(SEED),
        text => number(text)
            .ok_or_else(|| format!("the seed is a number, in decimal or as 0x.., not {text}")),
    }
}

/// A run of no calls would compare nothing and pass.
fn calls_in(text: &str, usual: u64) -> Result<u64, String> {
    match text {
        "" => Ok(usual),
        text => number(text)
            .filter(|calls| *calls > 0)
            .ok_or_else(|| format!("the number of calls is 1 at least, not {text}")),
    }
}

fn number(text: &str) -> Option<u64> {
    match text.strip_prefix("0x") {
        Some(digits) => u64::from_str_radix(digits, 16).ok(),
        None => text.replace('_', "").parse().ok(),
    }
}

#[cfg(test)]
mod tests {
    use super::*;

    #[test]
    fn a_run_compares_something() {
        assert_eq!(calls_in("", 7), Ok(7));
        assert_eq!(calls_in("10_000", 7), Ok(10_000));
        for text in ["0", "0x0", "-1", "many", " 1"] {
            assert!(calls_in(text, 7).is_err(), "{text}");
        }
    }

    #[test]
    fn the_seed_is_the_fixed_one_or_the_one_given() {
        assert_eq!(seed_in(""), Ok(SEED));
        assert_eq!(seed_in("0x10"), Ok(16));
        assert_eq!(seed_in("0"), Ok(0));
        assert!(seed_in("lucky").is_err());
    }
}
