//! Names for the screen, told unmistakably: what cannot be seen, what would steer the terminal or turn the line round, and what is
//! no text is shown escaped, and so is the escape itself.

use std::ffi::OsStr;
use std::os::unix::ffi::OsStrExt;

pub fn shown(name: impl AsRef<OsStr>) -> String {
    bytes_shown(name.as_ref().as_bytes())
}

/// A name in bytes, which need not be text.
pub fn bytes_shown(name: &[u8]) -> String {
    let mut text = String::new();
    for chunk in name.utf8_chunks() {
        chunk.valid().chars().for_each(|c| text.push_str(&seen(c)));
        let odd = chunk.invalid().iter().map(|byte| format!("\\x{byte:02x}"));
        text.extend(odd);
    }
    outer_spaces_escaped(&text)
}

/// Text of this program's own making that quotes what was typed.
pub fn plain(text: &str) -> String {
    bytes_shown(text.as_bytes())
}

fn seen(c: char) -> String {
    let blank = c.is_whitespace() && c != ' ';
    if c == '\\' || c.is_control() || blank || is_in(c, &UNSEEN) {
        c.escape_default().collect()
    } else {
        c.into()
    }
}

/// A space at an end would not be seen.
fn outer_spaces_escaped(text: &str) -> String {
    let inner = text.trim_matches(' ');
    if inner.is_empty() {
        return "\\x20".repeat(text.len());
    }
    let leading = text.len() - text.trim_start_matches(' ').len();
    let trailing = text.len() - text.trim_end_matches(' ').len();
    let spaces = |count: usize| "\\x20".repeat(count);
    format!("{}{inner}{}", spaces(leading), spaces(trailing))
}

/// Columns that a text takes on a terminal.
pub fn width(text: &str) -> usize {
    let columns = |c: char| match c {
        _ if is_in(c, &MARKS) => 0,
        _ if is_in(c, &WIDE) => 2,
        _ => 1,
    };
    text.chars().map(columns).sum()
}

/// The text with spaces behind it, as wide as asked at least.
pub fn padded(text: &str, columns: usize) -> String {
    let spaces = columns.saturating_sub(width(text));
    format!("{text}{:spaces$}", "")
}

fn is_in(c: char, ranges: &[(u32, u32)]) -> bool {
    let code = u32::from(c);
    ranges
        .iter()
        .any(|(first, last)| (*first..=*last).contains(&code))
}

/// Characters of no width, and those that turn the direction of the line.
const UNSEEN: [(u32, u32); 14] = [
    (0xAD, 0xAD),
    (0x34F, 0x34F),
    (0x61C, 0x61C),
    (0x115F, 0x1160),
    (0x180B, 0x180F),
    (0x200B, 0x200F),
    (0x2028, 0x202E),
    (0x2060, 0x206F),
    (0x3164, 0x3164),
    (0xFE00, 0xFE0F),
    (0xFEFF, 0xFEFF),
    (0xFFA0, 0xFFA0),
    (0xFFF0, 0xFFFD),
    (0xE0000, 0xE0FFF),
];

/// Marks that stand over or under the character before them, of the common scripts.
const MARKS: [(u32, u32); 33] = [
    (0x300, 0x36F),
    (0x483, 0x489),
    (0x591, 0x5BD),
    (0x5BF, 0x5BF),
    (0x5C1, 0x5C2),
    (0x5C4, 0x5C5),
    (0x5C7, 0x5C7),
    (0x610, 0x61A),
    (0x64B, 0x65F),
    (0x670, 0x670),
    (0x6D6, 0x6DC),
    (0x6DF, 0x6E4),
    (0x6E7, 0x6E8),
    (0x6EA, 0x6ED),
    (0x711, 0x711),
    (0x730, 0x74A),
    (0x900, 0x902),
    (0x93A, 0x93A),
    (0x93C, 0x93C),
    (0x941, 0x948),
    (0x94D, 0x94D),
    (0x951, 0x957),
    (0xE31, 0xE31),
    (0xE34, 0xE3A),
    (0xE47, 0xE4E),
    (0xEB1, 0xEB1),
    (0xEB4, 0xEBC),
    (0xEC8, 0xECE),
    (0x1AB0, 0x1AFF),
    (0x1DC0, 0x1DFF),
    (0x20D0, 0x20FF),
    (0x3099, 0x309A),
    (0xFE20, 0xFE2F),
];

/// East Asian characters and pictures of two columns.
const WIDE: [(u32, u32); 15] = [
    (0x1100, 0x115E),
    (0x2E80, 0x303E),
    (0x3041, 0x3098),
    (0x309B, 0x33FF),
    (0x3400, 0x4DBF),
    (0x4E00, 0x9FFF),
    (0xA000, 0xA4CF),
    (0xA960, 0xA97F),
    (0xAC00, 0xD7A3),
    (0xF900, 0xFAFF),
    (0xFE30, 0xFE6F),
    (0xFF01, 0xFF60),
    (0xFFE0, 0xFFE6),
    (0x1F300, 0x1FAFF),
    (0x20000, 0x3FFFD),
];

#[cfg(test)]
mod tests {
    use super::*;

    #[test]
    fn names_cannot_steer_the_terminal_or_turn_the_line_round() {
        assert_eq!(plain("a\u{1b}[2Jb\n"), "a\\u{1b}[2Jb\\n");
        assert_eq!(plain("gpj.\u{202e}exe"), "gpj.\\u{202e}exe");
        assert_eq!(plain("a\u{200b}b\u{a0}c"), "a\\u{200b}b\\u{a0}c");
        assert_eq!(plain("ไทย"), "ไทย");
    }

    #[test]
    fn no_two_names_are_told_alike() {
        let names: [&[u8]; 9] = [
            b"a\\n",
            b"a\n",
            b"a\xff",
            b"a\\xff",
            "a\u{fffd}".as_bytes(),
            b"a ",
            b"a",
            b" a",
            b"a\\x20",
        ];
        let told: std::collections::BTreeSet<String> =
            names.iter().map(|n| bytes_shown(n)).collect();
        assert_eq!(told.len(), names.len(), "{told:?}");
        assert_eq!(bytes_shown(b"  "), "\\x20\\x20");
    }

    #[test]
    fn columns_of_wide_characters_and_of_marks() {
        assert_eq!(width("ab"), 2);
        assert_eq!(width("字体"), 4);
        assert_eq!(width("ที่"), 1);
        assert_eq!(padded("字", 4), "字  ");
        assert_eq!(padded("abcde", 4), "abcde");
    }
}
