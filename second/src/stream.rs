//! The word stream: 20-bit words back to back, command first, most
//! significant bit first. A word is taken as five half bytes.

/// Refusal: a word to be packed is above 1,048,575.
pub const WORD_TOO_LARGE: i64 = 1;
/// Refusal: the packed length mod 5 is 1, 2 or 4.
pub const BAD_LENGTH: i64 = 11;
/// Refusal: the last half byte of an odd stream isn't 0.
pub const BAD_LAST_HALF_BYTE: i64 = 12;

/// The largest number that is a word.
pub const LARGEST_WORD: i64 = 1_048_575;

/// One word: a command from 0 to 15 and data from 0 to 65535.
#[derive(Clone, Copy, Debug, PartialEq, Eq)]
pub struct Word {
    pub command: i64,
    pub data: i64,
}

impl Word {
    pub fn new(command: i64, data: i64) -> Word {
        Word { command, data }
    }

    /// command · 65536 + data, taken apart.
    pub fn from_number(number: i64) -> Word {
        Word::new(number / 65536, number % 65536)
    }

    pub fn number(self) -> i64 {
        self.command * 65536 + self.data
    }
}

/// The half bytes of a stream, the upper half of each byte first.
pub fn half_bytes(bytes: &[u8]) -> Vec<i64> {
    let mut halves = Vec::new();
    for byte in bytes {
        halves.push(i64::from(*byte) / 16);
        halves.push(i64::from(*byte) % 16);
    }
    halves
}

/// The words of a packed stream, or refusal 11 or 12, in this order.
pub fn unpack(bytes: &[u8]) -> Result<Vec<Word>, i64> {
    if [1, 2, 4].contains(&(bytes.len() % 5)) {
        return Err(BAD_LENGTH);
    }
    let halves = half_bytes(bytes);
    let fives = halves.chunks_exact(5);
    // An "odd stream" has an odd number of words: length mod 5 is 3
    // (docs/READINGS.md), so at most one half byte is left.
    if fives.remainder().iter().any(|half| *half != 0) {
        return Err(BAD_LAST_HALF_BYTE);
    }
    Ok(fives.map(word_of_halves).collect())
}

/// Five half bytes, read as one number, most significant first.
pub fn word_of_halves(halves: &[i64]) -> Word {
    Word::from_number(halves.iter().fold(0, |number, half| number * 16 + half))
}

/// The bytes of the words with these numbers, or refusal 1.
pub fn pack(numbers: &[i64]) -> Result<Vec<u8>, i64> {
    if numbers.iter().any(|number| *number > LARGEST_WORD) {
        return Err(WORD_TOO_LARGE);
    }
    let mut halves = Vec::new();
    for number in numbers {
        for divisor in [65536, 4096, 256, 16, 1] {
            halves.push(number / divisor % 16);
        }
    }
    if halves.len() % 2 == 1 {
        halves.push(0);
    }
    Ok(halves.chunks(2).map(|two| (two[0] * 16 + two[1]) as u8).collect())
}

/// The bytes of words, which are never too large.
pub fn pack_words(words: &[Word]) -> Vec<u8> {
    let numbers: Vec<i64> = words.iter().map(|word| word.number()).collect();
    pack(&numbers).expect("a word is at most 20 bits")
}
