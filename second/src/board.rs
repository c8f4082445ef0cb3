//! A board of one, two or four chips, which share a picture's columns
//! (document 02, [8]). Each unit is a machine of its own, with registers and
//! memories of its own: the board judges a word once and gives it to all, with
//! the unit's number in INIT. That the units' registers stay alike is checked
//! at each word, and not built in.

use crate::commands::{accept, applies, IMG, INIT, PTRN};
use crate::picture::Picture;
use crate::registers::{InitData, Registers};
use crate::stream::{unpack, Word};
use crate::strobes;

/// The numbers of units that a board may have; their places are INIT's chips
/// codes.
pub const SIZES: [u64; 3] = [1, 2, 4];

#[derive(Clone, Debug)]
pub struct Board {
    units: Vec<Registers>,
}

/// How a run ended.
#[derive(Clone, Copy, Debug, PartialEq, Eq)]
pub struct Ended {
    pub refusal: i64,
    pub index: i64,
    pub sum: u64,
}

impl Ended {
    /// Refused before the first word.
    fn refused(refusal: i64) -> Ended {
        Ended { refusal, index: 0, sum: 0 }
    }
}

impl Board {
    /// Reset: another N is 9.
    pub fn reset(size: u64) -> Result<Board, i64> {
        if SIZES.contains(&size) {
            Ok(Board { units: vec![Registers::reset(); size as usize] })
        } else {
            Err(9)
        }
    }

    pub fn size(&self) -> usize {
        self.units.len()
    }

    /// INIT's code for as many chips as the board has.
    pub fn chips(&self) -> i64 {
        SIZES.iter().position(|size| *size == self.size() as u64).expect("chosen at reset") as i64
    }

    /// The registers of the first unit; the others' are the same, but for
    /// their columns.
    pub fn registers(&self) -> &Registers {
        &self.units[0]
    }

    /// A word over lent memories, a pair for each unit and perhaps more: its
    /// refusal, and the units' counts together.
    pub fn take(&mut self, word: Word, lent: &mut [Picture]) -> (i64, u64) {
        let refusal = self.refusal(word, lent);
        if refusal != 0 {
            return (refusal, 0);
        }
        let mut passed = 0;
        for (number, (registers, picture)) in self.units.iter_mut().zip(lent).enumerate() {
            let accepted = accept(registers.clone(), for_unit(number as i64, word));
            passed += picture.take(&accepted);
            *registers = accepted.registers;
        }
        assert!(self.units.iter().all(|unit| alike(unit, self.registers())), "the units went different ways");
        (0, passed)
    }

    /// The lowest number that applies to a word, or 0.
    pub fn refusal(&self, word: Word, lent: &[Picture]) -> i64 {
        (1..=14).find(|number| self.applies(*number, word, lent)).unwrap_or(0)
    }

    /// Whether the row of the table with this number applies to a word,
    /// whatever the other rows say: what is said of boards, and what is said
    /// of one chip.
    fn applies(&self, number: i64, word: Word, lent: &[Picture]) -> bool {
        match number {
            1 => word.command > 15,
            2 => !self.have_one_length(lent),
            5 if self.size() > 1 && [PTRN, IMG].contains(&word.command) => true,
            9 if word.command == INIT => !InitData::of(word.data).is_allowed(self.chips()),
            _ => applies(number, self.registers(), word),
        }
    }

    /// All memories of the board, I and Z of each unit.
    fn have_one_length(&self, lent: &[Picture]) -> bool {
        let length = lent[0].i.len();
        lent[..self.size()].iter().all(|picture| picture.i.len() == length && picture.z.len() == length)
    }

    /// The read call: its refusal, and the pixel, which is 0 if refused. On
    /// more than one unit 2, 3 and 5 apply.
    pub fn read(&mut self, lent: &[Picture]) -> (i64, i64) {
        if !self.have_one_length(lent) {
            return (2, 0);
        }
        match self.units.as_mut_slice() {
            [alone] => strobes::read(alone, &lent[0]),
            units if units[0].initialised => (5, 0),
            _ => (3, 0),
        }
    }

    /// Runs a packed stream from reset, until a word is refused. 9 is reset's,
    /// and leaves no board; then 11, 12 and 2 are checked.
    pub fn run(size: u64, bytes: &[u8], lent: &mut [Picture]) -> (Ended, Option<Board>) {
        let mut board = match Board::reset(size) {
            Ok(board) => board,
            Err(refusal) => return (Ended::refused(refusal), None),
        };
        let words = match unpack(bytes) {
            Ok(words) => words,
            Err(refusal) => return (Ended::refused(refusal), Some(board)),
        };
        if !board.have_one_length(lent) {
            return (Ended::refused(2), Some(board));
        }
        let mut ended = Ended::refused(0);
        for word in words {
            let (refusal, passed) = board.take(word, lent);
            if refusal != 0 {
                return (Ended { refusal, ..ended }, Some(board));
            }
            ended = Ended { refusal: 0, index: ended.index + 1, sum: ended.sum.wrapping_add(passed) };
        }
        (ended, Some(board))
    }
}

/// The word that a unit gets: INIT, which comes with unit 0, has the unit's
/// number instead; other words go to all alike.
fn for_unit(number: i64, word: Word) -> Word {
    match word.command {
        INIT => Word::new(INIT, word.data + 16 * number),
        _ => word,
    }
}

/// Whether two units have the same registers, but for their columns.
fn alike(one: &Registers, other: &Registers) -> bool {
    *one == Registers { layout: one.layout, ..other.clone() }
}

/// The word for a board that says what a word says to one chip: the chips
/// codes 0 and the board's own change places in INIT, so that what one chip
/// refuses stays refused.
pub fn for_board(chips: i64, word: Word) -> Word {
    let asked = InitData::of(word.data);
    let code = match asked.chips {
        0 => chips,
        code if code == chips => 0,
        code => code,
    };
    match word.command {
        INIT => Word::new(INIT, word.data + 64 * (code - asked.chips)),
        _ => word,
    }
}

#[cfg(test)]
mod tests {
    use super::*;
    use crate::commands::step;
    use crate::generator::generate;
    use crate::registers::Layout;
    use crate::stream::{half_bytes, word_of_halves};

    fn words(text: &str) -> Vec<Word> {
        text.split_whitespace().map(|word| Word::from_number(i64::from_str_radix(word, 16).unwrap())).collect()
    }

    /// A board of so many units, each with so many fresh places, after words.
    fn after(size: u64, places: usize, text: &str) -> (Board, Vec<Picture>, Vec<(i64, u64)>) {
        let mut board = Board::reset(size).unwrap();
        let mut lent = vec![Picture::cleared(places); size as usize];
        let told = words(text).into_iter().map(|word| board.take(word, &mut lent)).collect();
        (board, lent, told)
    }

    fn last_refusal(size: u64, text: &str) -> i64 {
        after(size, 64, text).2.last().unwrap().0
    }

    #[test]
    fn sizes_are_one_two_and_four() {
        let refused: Vec<u64> = (0..10).filter(|size| Board::reset(*size).is_err()).collect();
        assert_eq!(refused, [0, 3, 5, 6, 7, 8, 9]);
        assert_eq!(Board::reset(3).unwrap_err(), 9);
        assert_eq!(Board::reset(u64::MAX).unwrap_err(), 9);
    }

    /// INIT's chips code must be the board's, and its unit 0.
    #[test]
    fn init_names_the_board() {
        for (size, good) in [(1, "F0000"), (2, "F0040"), (4, "F0080")] {
            for word in ["F0000", "F0040", "F0080", "F00C0"] {
                assert_eq!(last_refusal(size, word), if word == good { 0 } else { 9 }, "{} units, {}", size, word);
            }
        }
        assert_eq!(last_refusal(2, "F0050"), 9);
        assert_eq!(last_refusal(4, "F00B0"), 9);
        assert_eq!(last_refusal(4, "F0088"), 9);
        assert_eq!(last_refusal(4, "F1080"), 9);
    }

    /// 0 and 9 hex on more than one unit: 3 before INIT, then 5, also while a
    /// parameter is awaited; on one unit they are what they are on one chip.
    #[test]
    fn pictures_need_one_unit() {
        for command in ["00001", "90000", "9FFFF"] {
            assert_eq!(last_refusal(2, command), 3);
            assert_eq!(last_refusal(2, &format!("F0040 {}", command)), 5);
            assert_eq!(last_refusal(4, &format!("F0080 E0006 D0000 {}", command)), 5);
            assert_eq!(last_refusal(1, &format!("F0000 E0006 D0000 {}", command)), 6);
        }
        assert_eq!(last_refusal(1, "F0000 90000"), 0);
        assert_eq!(last_refusal(1, "F0000 00001"), 14);
    }

    #[test]
    fn reads_need_one_unit() {
        let read = |size, text: &str| {
            let (mut board, lent, _) = after(size, 64, text);
            board.read(&lent)
        };
        assert_eq!(read(2, ""), (3, 0));
        assert_eq!(read(2, "F0040"), (5, 0));
        assert_eq!(read(4, "F0080 E0000"), (5, 0));
        assert_eq!(read(1, "F0000 E0000"), (6, 0));
        assert_eq!(read(1, "F0000"), (14, 0));
        let (mut board, mut lent, _) = after(4, 64, "F0080");
        lent[3].z.pop();
        assert_eq!(board.read(&lent), (2, 0));
    }

    /// Any two memories of the board that differ; others are not looked at.
    #[test]
    fn lengths_are_those_of_the_board() {
        for (size, init) in [(1, "F0000"), (2, "F0040"), (4, "F0080")] {
            for short in 0..8 {
                let mut lent = vec![Picture::cleared(64); 4];
                let picture: &mut Picture = &mut lent[short / 2];
                if short % 2 == 0 { picture.i.pop() } else { picture.z.pop() };
                let of_board = short / 2 < size as usize;
                let told = Board::reset(size).unwrap().take(words(init)[0], &mut lent);
                assert_eq!(told.0, if of_board { 2 } else { 0 }, "{} units, memory {}", size, short);
                let bad = Board::reset(size).unwrap().take(Word::new(16, 0), &mut lent);
                assert_eq!(bad.0, 1);
            }
        }
    }

    /// A line of five pixels, (3, 1) to (7, 1): unit u has x mod N = u, at
    /// place y·(L/N) + x div N.
    #[test]
    fn columns_go_to_their_units() {
        let line = "E0004 D0006 E0008 D0009 D0000 30001 80003 B0007";
        let lit = |size, init: &str| -> Vec<Vec<usize>> {
            let (_, lent, told) = after(size, 256, &format!("{} {}", init, line));
            assert_eq!(told.last(), Some(&(0, if size == 1 { 0 } else { 5 })));
            lent.iter().map(|picture| (0..256).filter(|place| picture.i[*place] == 9).collect()).collect()
        };
        // 256 places hold one row of one chip, two of a board of two
        assert_eq!(lit(1, "F0000"), [vec![]]);
        assert_eq!(lit(2, "F0040"), [vec![130, 131], vec![129, 130, 131]]);
        assert_eq!(lit(4, "F0080"), [vec![65], vec![65], vec![65], vec![64, 65]]);
    }

    /// Runs: 9 at reset, then 11, 12, 2, then the words.
    #[test]
    fn runs_are_refused_in_order() {
        let run = |size, bytes: &[u8], last_z: usize| {
            let mut lent = vec![Picture::cleared(64); 4];
            lent[3].z.truncate(last_z);
            Board::run(size, bytes, &mut lent).0
        };
        assert_eq!(run(3, &[0], 63), Ended::refused(9));
        assert_eq!(run(4, &[0], 63), Ended::refused(11));
        assert_eq!(run(4, &[0xF0, 0x08, 0x01], 63), Ended::refused(12));
        assert_eq!(run(4, &[], 63), Ended::refused(2));
        assert_eq!(run(2, &[], 63), Ended::refused(0));
        assert_eq!(run(4, &[0xF0, 0x08, 0x00], 64), Ended { refusal: 0, index: 1, sum: 0 });
        assert_eq!(run(4, &[0xF0, 0x08, 0x0F, 0, 0], 64), Ended { refusal: 9, index: 1, sum: 0 });
    }

    /// What [8] wants proved: read together, the memories are those of one
    /// chip given the same words, and the counts sum to its count.
    #[test]
    fn read_together_they_are_one_chip() {
        let mut passed_in_all = 0;
        for seed in 0..60 {
            let words: Vec<Word> = half_bytes(&generate(seed)).chunks_exact(5).map(word_of_halves).collect();
            for size in SIZES {
                passed_in_all += one_chip_is_matched(size, &words);
            }
        }
        assert!(passed_in_all > 100_000);
    }

    fn one_chip_is_matched(size: u64, words: &[Word]) -> u64 {
        let mut board = Board::reset(size).unwrap();
        let places = 8192 / size as usize;
        let mut lent = vec![Picture::cleared(places); size as usize];
        let (mut registers, mut picture) = (Registers::reset(), Picture::cleared(8192));
        let mut sum = 0;
        for word in words.iter().filter(|word| size == 1 || ![PTRN, IMG].contains(&word.command)) {
            let told = match step(&registers, *word) {
                Ok(accepted) => {
                    let passed = picture.take(&accepted);
                    registers = accepted.registers;
                    (0, passed)
                }
                Err(refusal) => (refusal, 0),
            };
            assert_eq!(board.take(for_board(board.chips(), *word), &mut lent), told, "{:05X}", word.number());
            sum += told.1;
        }
        assert_eq!(*board.registers(), Registers { layout: board.registers().layout, ..registers });
        for place in 0..8192 {
            let (unit, at) = (place % size as usize, place / size as usize);
            assert_eq!((lent[unit].i[at], lent[unit].z[at]), (picture.i[place], picture.z[place]), "place {}", place);
        }
        sum
    }

    #[test]
    fn units_are_numbered_by_init() {
        let (board, _, _) = after(4, 64, "F0080");
        let layouts: Vec<Layout> = board.units.iter().map(|unit| unit.layout).collect();
        assert_eq!(layouts, [0, 1, 2, 3].map(|unit| Layout::Columns { unit, of: 4 }));
    }
}
