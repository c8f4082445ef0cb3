//! Mending a damaged recording (document 02, [13]): the whole words that are
//! there, run in order from reset; those that are refused are dropped.

use crate::commands;
use crate::picture::Picture;
use crate::printing::{picture_text, PLACES};
use crate::registers::Registers;
use crate::run::Outcome;
use crate::stream::{half_bytes, pack_words, word_of_halves, Word};

/// The longest recording that is read.
pub const LONGEST_RECORDING: usize = 1_048_576;

/// A dropped word: its index in the old stream, and its refusal.
pub struct Dropped {
    pub index: usize,
    pub refusal: i64,
    pub word: Word,
}

/// What becomes of a recording.
pub struct Mended {
    pub kept: Vec<Word>,
    pub dropped: Vec<Dropped>,
    /// Bits cut from the end.
    pub cut: i64,
    /// A closing half byte that was not 0 was cleared.
    pub cleared: bool,
}

/// The whole words that are there, and the half bytes behind the last.
fn whole_words(bytes: &[u8]) -> (Vec<Word>, Vec<i64>) {
    let halves = half_bytes(bytes);
    let fives = halves.chunks_exact(5);
    let rest = fives.remainder().to_vec();
    (fives.map(word_of_halves).collect(), rest)
}

pub fn mend(bytes: &[u8]) -> Mended {
    let (words, rest) = whole_words(bytes);
    let mut mended = Mended { kept: Vec::new(), dropped: Vec::new(), cut: 0, cleared: false };
    let mut registers = Registers::reset();
    for (index, word) in words.into_iter().enumerate() {
        match commands::step(&registers, word) {
            Ok(accepted) => {
                registers = accepted.registers;
                mended.kept.push(word);
            }
            Err(refusal) => mended.dropped.push(Dropped { index, refusal, word }),
        }
    }
    // One half byte left over closes an odd number of words; more of them
    // are the beginning of a word that was lost.
    match rest[..] {
        [] => {}
        [closing] => mended.cleared = closing != 0,
        _ => mended.cut = 4 * rest.len() as i64,
    }
    mended
}

/// The commands' names in the sheet's table; 7 and C hex are reserved.
const NAMES: [&str; 16] = [
    "PTRN", "I", "Z", "Y", "X", "T1X", "T2X", "RSVD", "LX", "IMG", "ADDR", "PX", "RSVD", "PARM", "AUX", "INIT",
];

impl Mended {
    pub fn stream(&self) -> Vec<u8> {
        pack_words(&self.kept)
    }

    /// What is said of it: the dropped words, a line each, and the summary;
    /// nothing where nothing was mended.
    pub fn said(&self) -> String {
        if self.dropped.is_empty() && self.cut == 0 && !self.cleared {
            return String::new();
        }
        let mut text = String::new();
        for dropped in &self.dropped {
            let Word { command, data } = dropped.word;
            let name = NAMES[command as usize];
            text += &format!("refusal {} {:X}{:04X} # {:07} {:<4} {:04X}\n", dropped.refusal, command, data, dropped.index, name, data);
        }
        let cleared = i64::from(self.cleared);
        text + &format!("kept {} dropped {} cut {} cleared {}\n", self.kept.len(), self.dropped.len(), self.cut, cleared)
    }
}

/// What the drawing program should print for the mended stream, worked out
/// from the old one: its words in order, refused ones skipped.
pub fn drawn_skipping(bytes: &[u8]) -> String {
    let mut registers = Registers::reset();
    let mut picture = Picture::cleared(PLACES);
    let mut outcome = Outcome { words: 0, refusal: 0, passed: 0, line_length: registers.line_length };
    for word in whole_words(bytes).0 {
        if let Ok(accepted) = commands::step(&registers, word) {
            outcome.passed = outcome.passed.wrapping_add(picture.take(&accepted));
            registers = accepted.registers;
            outcome.words += 1;
        }
    }
    outcome.line_length = registers.line_length;
    picture_text(&outcome, &picture)
}

#[cfg(test)]
mod tests {
    use super::*;
    use crate::printing::drawing;
    use crate::stream::pack;

    /// INIT, a reserved command, I and a closing half byte that is not 0.
    #[test]
    fn a_refused_word_and_a_half_byte() {
        let bytes = [0xF0, 0x00, 0x07, 0x00, 0x00, 0x10, 0x00, 0x59];
        let mended = mend(&bytes);
        assert_eq!(mended.stream(), [0xF0, 0x00, 0x01, 0x00, 0x05]);
        assert_eq!(mended.said(), "refusal 4 70000 # 0000001 RSVD 0000\nkept 2 dropped 1 cut 0 cleared 1\n");
    }

    /// Document 02: 8, 16, 12 at length mod 5 of 1, 2, 4; else 0. A half
    /// byte is cleared only at 3.
    #[test]
    fn where_a_stream_ends() {
        for (length, cut, cleared) in [(0, 0, false), (1, 8, false), (2, 16, false), (3, 0, true), (4, 12, false), (5, 0, false)] {
            let mended = mend(&vec![0xFF; length]);
            assert_eq!((mended.cut, mended.cleared), (cut, cleared), "length {}", length);
        }
        assert!(!mend(&[0xFF, 0xFF, 0xF0]).cleared);
    }

    /// A parameter that is refused stays awaited, so the next one is taken.
    #[test]
    fn what_follows_a_refused_word() {
        let words = [0xE0000, 0xF0000, 0xE0000, 0xD0002, 0xD0001, 0xD0000, 0x40005];
        let mended = mend(&pack(&words).unwrap());
        let listed: Vec<(usize, i64)> = mended.dropped.iter().map(|dropped| (dropped.index, dropped.refusal)).collect();
        assert_eq!(listed, [(0, 3), (3, 9), (5, 7), (6, 10)]);
        assert_eq!(mended.kept.len(), 3);
    }

    #[test]
    fn nothing_to_mend() {
        let good = pack(&[0xF0000, 0xE0004, 0xD0006]).unwrap();
        let mended = mend(&good);
        assert_eq!(mended.stream(), good);
        assert_eq!(mended.said(), "");
        assert_eq!(drawn_skipping(&good), drawing(&good));
    }
}
