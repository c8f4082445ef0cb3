//! Words as text: hexadecimal, one a line.

use crate::stream::{self, Word, LARGEST_WORD};

/// Why text could not be made into a stream, or a stream into text.
pub type Message = String;

/// Text to packed bytes. Lines that hold nothing but blanks are skipped.
pub fn pack_text(text: &[u8]) -> Result<Vec<u8>, Message> {
    let text = std::str::from_utf8(text).map_err(|_| "the input is not text".to_string())?;
    let mut numbers = Vec::new();
    for (index, line) in text.lines().enumerate() {
        let line = line.trim();
        if !line.is_empty() {
            let number = hexadecimal(line).ok_or_else(|| not_hexadecimal(index, line))?;
            numbers.push(number);
        }
    }
    stream::pack(&numbers).map_err(|refusal| pack_refused(refusal, &numbers))
}

/// The number that hexadecimal digits stand for. What is above every word
/// is told as the number just above the largest word.
fn hexadecimal(digits: &str) -> Option<i64> {
    let mut number = 0;
    for digit in digits.chars() {
        number = number * 16 + i64::from(digit.to_digit(16)?);
        if number > LARGEST_WORD {
            number = LARGEST_WORD + 1;
        }
    }
    Some(number)
}

fn not_hexadecimal(index: usize, line: &str) -> Message {
    format!("line {}: not a hexadecimal word: {}", index + 1, line)
}

fn pack_refused(refusal: i64, numbers: &[i64]) -> Message {
    let place = numbers.iter().position(|number| *number > LARGEST_WORD);
    format!("refusal {}: word {} is above FFFFF", refusal, place.unwrap_or(0))
}

/// Packed bytes to text, five digits a word.
pub fn unpack_text(bytes: &[u8]) -> Result<String, Message> {
    let words = stream::unpack(bytes).map_err(|refusal| unpack_refused(refusal, bytes.len()))?;
    Ok(words.iter().map(|word| line_of(*word)).collect())
}

fn line_of(word: Word) -> String {
    format!("{:05X}\n", word.number())
}

fn unpack_refused(refusal: i64, length: usize) -> Message {
    if refusal == stream::BAD_LENGTH {
        format!("refusal {}: a stream of {} bytes holds no whole number of words", refusal, length)
    } else {
        format!("refusal {}: the last half byte is not 0", refusal)
    }
}

#[cfg(test)]
mod tests {
    use super::*;

    #[test]
    fn there_and_back() {
        let bytes = pack_text(b"F0000\n\n e0004 \nD0006\n").unwrap();
        assert_eq!(bytes, [0xF0, 0x00, 0x0E, 0x00, 0x04, 0xD0, 0x00, 0x60]);
        assert_eq!(unpack_text(&bytes).unwrap(), "F0000\nE0004\nD0006\n");
        assert_eq!(pack_text(b"").unwrap(), []);
        assert_eq!(unpack_text(b"").unwrap(), "");
    }

    #[test]
    fn bad_input_is_named() {
        assert!(pack_text(b"100000\n").unwrap_err().starts_with("refusal 1:"));
        assert!(pack_text(b"FFFFFFFFFFFFFFFFFFFFFFFFFFFFFFFFFFFFFF\n").unwrap_err().starts_with("refusal 1:"));
        assert!(pack_text(b"00000000000000000000FFFFF\n").is_ok());
        assert!(pack_text(b"F0000\nG\n").unwrap_err().starts_with("line 2:"));
        assert!(pack_text(b"-1\n").unwrap_err().starts_with("line 1:"));
        assert!(unpack_text(&[0; 4]).unwrap_err().starts_with("refusal 11:"));
        assert!(unpack_text(&[0, 0, 1]).unwrap_err().starts_with("refusal 12:"));
    }
}
