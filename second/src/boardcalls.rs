//! Calls on a board, one after the other, as text: a line is
//!
//! - `board N`: reset with so many units;
//! - `lend` and eight numbers: from now on so many places are lent of I and Z
//!   of the first unit, of the second, and so on, also of units that the board
//!   does not have;
//! - a word of five hexadecimal digits, or of six where the command is above
//!   15;
//! - `read`;
//! - `run N` and perhaps a packed stream, two hexadecimal digits a byte: the
//!   stream in one call, on so many units;
//! - `end`.
//!
//! A reset tells `board` and its refusal, a word its refusal and its count, a
//! read `read`, its refusal and the pixel, a run `run`, its refusal, index and
//! sum. A reset or a run that is refused with 9 for its N leaves the board that
//! stands. At `end` each of the four pairs of memories is told, whole: `unit`,
//! its number, and a checksum; what follows begins over memories as they were
//! at the start, all lent, with a board of one. A host's program is held to it.

use crate::board::Board;
use crate::picture::Picture;
use crate::stream::Word;
use crate::vectors::checksum;

/// The pairs of memories that a call is lent, and the places of each.
pub const PAIRS: usize = 4;
pub const PLACES: usize = 8192;

#[derive(Clone, Debug, PartialEq, Eq)]
pub enum Call {
    Reset(u64),
    Lend([usize; 2 * PAIRS]),
    Word(Word),
    Read,
    Run(u64, Vec<u8>),
    End,
}

/// Four pairs of memories: what is lent of them, and the places behind it.
pub struct Memories {
    lent: Vec<Picture>,
    kept: Vec<Picture>,
}

impl Memories {
    fn at_start() -> Memories {
        Memories { lent: (0..PAIRS).map(pair_at_start).collect(), kept: vec![Picture::cleared(0); PAIRS] }
    }

    fn lend(&mut self, lengths: [usize; 2 * PAIRS]) {
        for (unit, (lent, kept)) in self.lent.iter_mut().zip(&mut self.kept).enumerate() {
            divide(&mut lent.i, &mut kept.i, lengths[2 * unit]);
            divide(&mut lent.z, &mut kept.z, lengths[2 * unit + 1]);
        }
    }

    /// The lengths that are lent.
    pub fn lengths(&self) -> Vec<usize> {
        self.lent.iter().flat_map(|picture| [picture.i.len(), picture.z.len()]).collect()
    }

    fn text(&mut self) -> String {
        self.lend([PLACES; 2 * PAIRS]);
        self.lent.iter().enumerate().map(|(unit, picture)| format!("unit {} {:016x}\n", unit, checksum(&bytes_of(picture)))).collect()
    }
}

/// The numbers that a pair starts with: another I at each place, and depths
/// that are nearly the farthest.
fn pair_at_start(unit: usize) -> Picture {
    let mut picture = Picture::cleared(PLACES);
    for place in 0..PLACES {
        picture.i[place] = ((73 * place + 19 * unit) % 65536) as i64;
        picture.z[place] = 65535 - ((5 * place + 3 * unit) % 8) as i64;
    }
    picture
}

/// Two parts of a memory, divided anew.
fn divide(lent: &mut Vec<i64>, kept: &mut Vec<i64>, length: usize) {
    lent.append(kept);
    *kept = lent.split_off(length);
}

/// I and then Z, the more significant byte of a number first.
fn bytes_of(picture: &Picture) -> Vec<u8> {
    picture.i.iter().chain(&picture.z).flat_map(|number| (*number as u16).to_be_bytes()).collect()
}

/// The board and the memories.
pub struct Desk {
    pub board: Board,
    pub memories: Memories,
}

/// What a call told.
#[derive(Clone, Debug, PartialEq, Eq)]
pub enum Told {
    Reset(i64),
    Word(i64, u64),
    Read(i64, i64),
    Run(i64, i64, u64),
    Memories(String),
    Nothing,
}

impl Desk {
    pub fn at_start() -> Desk {
        Desk { board: Board::reset(1).expect("one unit"), memories: Memories::at_start() }
    }

    pub fn take(&mut self, call: &Call) -> Told {
        match call {
            Call::Reset(size) => Told::Reset(match Board::reset(*size) {
                Ok(board) => {
                    self.board = board;
                    0
                }
                Err(refusal) => refusal,
            }),
            Call::Lend(lengths) => {
                self.memories.lend(*lengths);
                Told::Nothing
            }
            Call::Word(word) => {
                let (refusal, passed) = self.board.take(*word, &mut self.memories.lent);
                Told::Word(refusal, passed)
            }
            Call::Read => {
                let (refusal, pixel) = self.board.read(&self.memories.lent);
                Told::Read(refusal, pixel)
            }
            Call::Run(size, bytes) => {
                let (ended, left) = Board::run(*size, bytes, &mut self.memories.lent);
                if let Some(board) = left {
                    self.board = board;
                }
                Told::Run(ended.refusal, ended.index, ended.sum)
            }
            Call::End => {
                let text = self.memories.text();
                *self = Desk::at_start();
                Told::Memories(text)
            }
        }
    }
}

impl Told {
    pub fn text(&self) -> String {
        match self {
            Told::Reset(refusal) => format!("board {}\n", refusal),
            Told::Word(refusal, passed) => format!("{} {}\n", refusal, passed),
            Told::Read(refusal, pixel) => format!("read {} {}\n", refusal, pixel),
            Told::Run(refusal, index, sum) => format!("run {} {} {}\n", refusal, index, sum),
            Told::Memories(text) => text.clone(),
            Told::Nothing => String::new(),
        }
    }
}

/// A call as text.
pub fn line_of(call: &Call) -> String {
    match call {
        Call::Reset(size) => format!("board {}\n", size),
        Call::Lend(lengths) => {
            let numbers: Vec<String> = lengths.iter().map(usize::to_string).collect();
            format!("lend {}\n", numbers.join(" "))
        }
        Call::Word(word) => format!("{:05X}\n", word.number()),
        Call::Read => "read\n".to_string(),
        Call::Run(size, bytes) => {
            let digits: String = bytes.iter().map(|byte| format!("{:02X}", byte)).collect();
            format!("{}\n", format!("run {} {}", size, digits).trim_end())
        }
        Call::End => "end\n".to_string(),
    }
}

#[cfg(test)]
mod tests {
    use super::*;

    #[test]
    fn lines_of_calls() {
        let calls = [
            Call::Reset(2),
            Call::Lend([1, 2, 3, 4, 5, 6, 7, 8]),
            Call::Word(Word::new(3, 10)),
            Call::Word(Word::new(255, 65535)),
            Call::Read,
            Call::Run(4, vec![]),
            Call::Run(3, vec![0xF0, 0x08, 0]),
            Call::End,
        ];
        let text: String = calls.iter().map(line_of).collect();
        assert_eq!(text, "board 2\nlend 1 2 3 4 5 6 7 8\n3000A\nFFFFFF\nread\nrun 4\nrun 3 F00800\nend\n");
    }

    /// What is behind the lent places comes back with them.
    #[test]
    fn lent_places_come_back() {
        let mut desk = Desk::at_start();
        let fresh = desk.memories.text();
        desk.take(&Call::Lend([0, 1, 2, 3, 4, 5, 6, 8192]));
        assert_eq!(desk.memories.lengths(), [0, 1, 2, 3, 4, 5, 6, 8192]);
        desk.take(&Call::Lend([8192, 1, 70, 0, 8191, 5, 6, 8192]));
        assert_eq!(desk.take(&Call::End), Told::Memories(fresh));
    }

    /// A wrong N leaves the board.
    #[test]
    fn a_wrong_number_of_units_changes_nothing() {
        let mut desk = Desk::at_start();
        assert_eq!(desk.take(&Call::Reset(4)), Told::Reset(0));
        assert_eq!(desk.take(&Call::Word(Word::new(15, 0x80))), Told::Word(0, 0));
        assert_eq!(desk.take(&Call::Reset(3)), Told::Reset(9));
        assert_eq!(desk.take(&Call::Run(5, vec![])), Told::Run(9, 0, 0));
        assert_eq!(desk.take(&Call::Read), Told::Read(5, 0));
        assert_eq!(desk.take(&Call::Run(2, vec![])), Told::Run(0, 0, 0));
        assert_eq!(desk.take(&Call::Read), Told::Read(3, 0));
    }
}
