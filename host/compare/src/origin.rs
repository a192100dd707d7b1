//! Where a call came from, and the report of a difference.

use std::fmt;

/// The place of a call within a run, enough to make it again.
#[derive(Clone, Copy, Debug, Default)]
pub struct Origin {
    pub seed: u64,
    pub session: u64,
    pub call: u64,
}

impl fmt::Display for Origin {
    fn fmt(&self, f: &mut fmt::Formatter<'_>) -> fmt::Result {
        write!(
            f,
            "seed {:#x}, session {}, call {} of the run",
            self.seed, self.session, self.call
        )
    }
}

const MOST_BYTES: usize = 1 << 20;
const MOST_OFFSETS: usize = 64;

/// Engine and model differ, or the engine breaks a rule: the whole case in words and hex digits.
#[derive(Debug)]
pub struct Difference {
    text: String,
}

impl Difference {
    pub fn new(origin: Origin, what: &str, call: &str) -> Difference {
        Difference::told(&format!("engine and model differ in {what}"), origin, call)
    }

    /// A rule that the engine breaks, whatever the model does.
    pub fn told(sentence: &str, origin: Origin, call: &str) -> Difference {
        Difference {
            text: format!("{sentence}\n{origin}\ncall: {call}\n"),
        }
    }

    /// A line with named bytes; of very many the first ones, as the seed makes the rest again.
    pub fn with(mut self, name: &str, bytes: &[u8]) -> Difference {
        let shown = &bytes[..bytes.len().min(MOST_BYTES)];
        self.text
            .push_str(&format!("{name} ({} bytes): {}\n", bytes.len(), hex(shown)));
        self
    }

    /// A line with the bytes in which engine and model differ.
    pub fn with_both(mut self, name: &str, engine: &[u8], model: &[u8]) -> Difference {
        let pairs = engine.iter().zip(model).enumerate();
        let differing = pairs.filter(|(_, (a, b))| a != b).take(MOST_OFFSETS);
        let offsets: Vec<String> = differing
            .map(|(at, (a, b))| format!("at {at} engine {a:02x} model {b:02x}"))
            .collect();
        let told = if offsets.is_empty() {
            "no difference".to_string()
        } else {
            offsets.join(", ")
        };
        self.text.push_str(&format!("{name} afterwards: {told}\n"));
        self
    }
}

impl fmt::Display for Difference {
    fn fmt(&self, f: &mut fmt::Formatter<'_>) -> fmt::Result {
        f.write_str(&self.text)
    }
}

/// What a call gave where engine and model agree; else the difference is told.
pub fn agree<T>(compared: Result<T, Box<Difference>>) -> T {
    compared.unwrap_or_else(|difference| panic!("{difference}"))
}

/// Bytes in hex digits; a byte that is repeated often is written once with its count.
pub fn hex(bytes: &[u8]) -> String {
    let mut text = String::new();
    for run in bytes.chunk_by(|a, b| a == b) {
        if run.len() > 8 {
            text.push_str(&format!("{:02x}*{} ", run[0], run.len()));
        } else {
            for byte in run {
                text.push_str(&format!("{byte:02x} "));
            }
        }
    }
    text.trim_end().to_string()
}

#[cfg(test)]
mod tests {
    use super::*;

    #[test]
    fn long_runs_are_counted() {
        let mut bytes = vec![1, 0xAB];
        bytes.extend([0; 9]);
        assert_eq!(hex(&bytes), "01 ab 00*9");
        assert_eq!(hex(&[0, 0]), "00 00");
        assert_eq!(hex(&[]), "");
    }
}
