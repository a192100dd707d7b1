//! Names, numbers, packets and pulses as a person reads them.

pub mod hex;
pub mod names;
pub mod packets;
pub mod pulses;

use std::io::{self, ErrorKind};

pub use names::{plain, shown};

/// A number in decimal, or in hexadecimal after `0x`.
pub fn number(text: &str) -> Option<u32> {
    let starts_with_digit = |t: &str| t.starts_with(|c: char| c.is_ascii_hexdigit());
    match text.strip_prefix("0x") {
        Some(digits) if starts_with_digit(digits) => u32::from_str_radix(digits, 16).ok(),
        None if starts_with_digit(text) => text.parse().ok(),
        _ => None,
    }
}

/// `1 block`, `2 blocks`.
pub fn count(number: u64, one: &str) -> String {
    let ending = if number == 1 { "" } else { "s" };
    format!("{number} {one}{ending}")
}

pub fn yes_no(yes: bool) -> &'static str {
    if yes { "yes" } else { "no" }
}

/// The common errors of files without their numbers.
pub fn io_error(error: &io::Error) -> String {
    match error.kind() {
        ErrorKind::NotFound => "there is no such file or directory".into(),
        ErrorKind::PermissionDenied => "permission is denied".into(),
        ErrorKind::IsADirectory => "it is a directory".into(),
        ErrorKind::StorageFull => "the disk is full".into(),
        ErrorKind::BrokenPipe => "its reader has closed it".into(),
        ErrorKind::ReadOnlyFilesystem => "its disk is read-only".into(),
        _ => error.to_string(),
    }
}

#[cfg(test)]
mod tests {
    use super::*;

    #[test]
    fn numbers_in_both_notations() {
        assert_eq!(number("65535"), Some(65_535));
        assert_eq!(number("0x81"), Some(0x81));
        for text in [
            "",
            "-1",
            "+1",
            "0x",
            "0x+1",
            "1e3",
            "4294967296",
            "seven",
            " 1",
        ] {
            assert_eq!(number(text), None, "{text}");
        }
    }
}
