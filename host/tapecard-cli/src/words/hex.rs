//! Bytes written as hexadecimal digits.

use crate::command_line::failure::Failure;

/// Reads words such as `08 01 0000ff`: two digits a byte, joined or apart; one digit alone is a byte too.
pub fn read(text: &str) -> Result<Vec<u8>, Failure> {
    let mut bytes = Vec::new();
    for word in text.split_whitespace() {
        bytes.extend(read_word(word)?);
    }
    Ok(bytes)
}

fn read_word(word: &str) -> Result<Vec<u8>, Failure> {
    let digits: Option<Vec<u8>> = word.chars().map(digit).collect();
    match digits.as_deref() {
        Some([lone]) => Ok(vec![*lone]),
        Some(digits) if digits.len() % 2 == 0 => Ok(digits
            .chunks(2)
            .map(|pair| pair[0] * 16 + pair[1])
            .collect()),
        _ => Err(Failure::work(format!(
            "{word:?} is no hexadecimal byte: write each byte as two digits, as in 08 01 00 00 02"
        ))),
    }
}

fn digit(character: char) -> Option<u8> {
    character.to_digit(16).and_then(|d| u8::try_from(d).ok())
}

/// Two digits a byte, a space between.
pub fn show(bytes: &[u8]) -> String {
    let pairs: Vec<String> = bytes.iter().map(|b| format!("{b:02X}")).collect();
    pairs.join(" ")
}

#[cfg(test)]
mod tests {
    use super::*;

    #[test]
    fn bytes_joined_or_apart() {
        assert_eq!(read("08 01 0000fF 7").unwrap(), [8, 1, 0, 0, 0xFF, 7]);
        assert_eq!(read(" ").unwrap(), []);
        assert_eq!(show(&[8, 0xAB]), "08 AB");
    }

    #[test]
    fn what_is_no_byte() {
        for text in ["0G", "123", "é8", "-1", "0x"] {
            assert!(read(text).is_err(), "{text}");
        }
    }
}
