//! A recording that comes in instalments (document 02, [3]): every half byte
//! that came is kept, and five of them are a word.

use crate::commands;
use crate::picture::Picture;
use crate::registers::Registers;
use crate::run::Outcome;
use crate::stream::{word_of_halves, BAD_LAST_HALF_BYTE, BAD_LENGTH};

/// A recording so far.
pub struct Instalments {
    halves: Vec<i64>,
    registers: Registers,
    told: Outcome,
    /// A word was refused, or the end was told.
    closed: bool,
}

impl Instalments {
    pub fn begun() -> Instalments {
        let registers = Registers::reset();
        let told = Outcome { words: 0, refusal: 0, passed: 0, line_length: registers.line_length };
        Instalments { halves: Vec::new(), registers, told, closed: false }
    }

    /// Takes bytes, and runs the words that are whole now. Before the end it
    /// tells 0 and the words run and their sum so far, or the refused word.
    /// Refusal 2 cannot come: a picture's two memories have the same length.
    pub fn feed(&mut self, bytes: &[u8], picture: &mut Picture) -> Outcome {
        for byte in bytes {
            self.halves.push(i64::from(*byte) / 16);
            self.halves.push(i64::from(*byte) % 16);
        }
        while !self.closed && (self.told.words as usize + 1) * 5 <= self.halves.len() {
            self.run_next(picture);
        }
        self.told.clone()
    }

    /// The first word that was not run yet: all before it were taken.
    fn run_next(&mut self, picture: &mut Picture) {
        let at = self.told.words as usize * 5;
        match commands::step(&self.registers, word_of_halves(&self.halves[at..at + 5])) {
            Ok(accepted) => {
                self.told.passed = self.told.passed.wrapping_add(picture.take(&accepted));
                self.registers = accepted.registers;
                self.told.words += 1;
                self.told.line_length = self.registers.line_length;
            }
            Err(refusal) => {
                self.told.refusal = refusal;
                self.closed = true;
            }
        }
    }

    /// The end: 11 and then 12, beside the words run and their sum.
    pub fn end(&mut self) -> Outcome {
        if !self.closed {
            self.told.refusal = self.flaw();
            self.closed = true;
        }
        self.told.clone()
    }

    fn flaw(&self) -> i64 {
        let bytes = self.halves.len() / 2;
        if [1, 2, 4].contains(&(bytes % 5)) {
            BAD_LENGTH
        } else if bytes % 5 == 3 && self.halves.last() != Some(&0) {
            BAD_LAST_HALF_BYTE
        } else {
            0
        }
    }
}

#[cfg(test)]
mod tests {
    use super::*;
    use crate::hexwords::pack_text;
    use crate::run::run;

    /// Document 01's drawing example, packed.
    fn example() -> Vec<u8> {
        let words = "F0000 E0004 D0006 10064 2000A 30000 50000 100C8 30000 40002 1012C 30002 40000";
        pack_text(words.replace(' ', "\n").as_bytes()).expect("words of 20 bits")
    }

    /// Cut in two at every place, with an empty instalment between.
    #[test]
    fn cut_anywhere_it_ends_as_at_once() {
        let bytes = example();
        let mut whole = Picture::cleared(8192);
        let at_once = run(&bytes, &mut whole);
        for place in 0..=bytes.len() {
            let mut picture = Picture::cleared(8192);
            let mut slow = Instalments::begun();
            slow.feed(&bytes[..place], &mut picture);
            let so_far = slow.feed(&[], &mut picture);
            assert_eq!((so_far.refusal, so_far.words as usize), (0, place * 2 / 5));
            slow.feed(&bytes[place..], &mut picture);
            assert_eq!(slow.end(), at_once);
            assert!(picture == whole);
        }
    }

    /// 11 and 12 come at the end, and tell the words run and their sum.
    #[test]
    fn flaws_are_told_at_the_end() {
        let mut bytes = example();
        for (length, refusal, words) in [(33, 0, 13), (32, 11, 12), (31, 11, 12), (30, 0, 12), (29, 11, 11), (28, 12, 11)] {
            let mut slow = Instalments::begun();
            slow.feed(&bytes[..length], &mut Picture::cleared(8192));
            let told = slow.end();
            assert_eq!((told.refusal, told.words), (refusal, words));
            assert_eq!(told.passed, if words == 13 { 3 } else { 0 });
        }
        bytes[32] |= 1;
        let mut slow = Instalments::begun();
        let mut picture = Picture::cleared(8192);
        slow.feed(&bytes, &mut picture);
        let told = slow.end();
        assert_eq!((told.refusal, told.words, told.passed), (12, 13, 3));
        assert_eq!(slow.feed(&example(), &mut picture), told);
        assert_eq!(slow.end(), told);
    }

    /// A refused word gives its number, its index and the sum before it.
    #[test]
    fn after_a_refused_word_nothing_is_run() {
        let mut bytes = example();
        bytes.truncate(30);
        let mut slow = Instalments::begun();
        let mut picture = Picture::cleared(8192);
        slow.feed(&bytes, &mut picture);
        let told = slow.feed(&[0x70, 0, 0x0F, 0, 0], &mut picture);
        assert_eq!((told.refusal, told.words, told.passed), (4, 12, 0));
        assert_eq!(slow.feed(&[0xF0], &mut picture), told);
        assert_eq!(slow.end(), told);
    }
}
