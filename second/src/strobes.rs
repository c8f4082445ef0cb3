//! Words and reads, one after the other, as text: a line is a word of five
//! hexadecimal digits, `read`, `tiled`, or `end`. What is told of a word or a
//! read is a line too, and at `end` the picture; what follows begins anew,
//! from reset over a fresh picture, and after `tiled` from the reset that
//! chooses tiles. A word that is refused is told and passed
//! over. A host's program is held to it.

use crate::commands::{self, transfer_refusal};
use crate::picture::Picture;
use crate::printing::{lit_places, PLACES};
use crate::registers::{Layout, Registers};
use crate::stream::Word;

#[derive(Clone, Copy, Debug, PartialEq, Eq)]
pub enum Call {
    Word(Word),
    Read,
    Tiled,
    End,
}

/// The registers and the picture.
pub struct Machine {
    pub registers: Registers,
    picture: Picture,
}

impl Machine {
    pub fn reset_to(layout: Layout) -> Machine {
        Machine { registers: Registers::reset_to(layout), picture: Picture::cleared(PLACES) }
    }

    /// A word: its refusal and its count.
    pub fn take(&mut self, word: Word) -> (i64, u64) {
        match commands::step(&self.registers, word) {
            Ok(accepted) => {
                let passed = self.picture.take(&accepted);
                self.registers = accepted.registers;
                (0, passed)
            }
            Err(refusal) => (refusal, 0),
        }
    }

    /// The read call: its refusal, and the pixel, which is 0 if refused.
    /// Number 2 cannot apply here.
    pub fn read(&mut self) -> (i64, i64) {
        read(&mut self.registers, &self.picture)
    }

    fn picture_text(&self) -> String {
        lit_places(self.registers.line_length, &self.picture)
    }
}

/// The read call on registers and memories of one length.
pub fn read(registers: &mut Registers, picture: &Picture) -> (i64, i64) {
    let refusal = match &*registers {
        registers if !registers.initialised => 3,
        registers if registers.awaiting.is_some() => 6,
        registers => transfer_refusal(registers, true),
    };
    match registers.region {
        Some(region) if refusal == 0 => {
            let (x, y) = region.pixel();
            registers.region = Some(region.moved_on());
            (0, picture.read(x, y, registers))
        }
        _ => (refusal, 0),
    }
}

/// What the calls tell, and the pictures that they leave.
pub fn answers(calls: &[Call]) -> String {
    let mut machine = Machine::reset_to(Layout::Rows);
    let mut told = String::new();
    for call in calls {
        match call {
            Call::Word(word) => {
                let (refusal, passed) = machine.take(*word);
                told += &format!("{} {}\n", refusal, passed);
            }
            Call::Read => {
                let (refusal, pixel) = machine.read();
                told += &format!("read {} {}\n", refusal, pixel);
            }
            Call::Tiled => machine = Machine::reset_to(Layout::Tiles),
            Call::End => {
                told += &machine.picture_text();
                machine = Machine::reset_to(Layout::Rows);
            }
        }
    }
    told
}

/// The calls that a text has.
pub fn parse(text: &str) -> Result<Vec<Call>, String> {
    text.lines().enumerate().map(|(index, line)| call_of(line).ok_or(format!("line {}: no call: {}", index + 1, line))).collect()
}

fn call_of(line: &str) -> Option<Call> {
    match line {
        "read" => Some(Call::Read),
        "tiled" => Some(Call::Tiled),
        "end" => Some(Call::End),
        word if word.len() == 5 => i64::from_str_radix(word, 16).ok().map(|number| Call::Word(Word::from_number(number))),
        _ => None,
    }
}

/// Calls as text.
pub fn text(calls: &[Call]) -> String {
    calls.iter().map(line_of).collect()
}

fn line_of(call: &Call) -> String {
    match call {
        Call::Word(word) => format!("{:05X}\n", word.number()),
        Call::Read => "read\n".to_string(),
        Call::Tiled => "tiled\n".to_string(),
        Call::End => "end\n".to_string(),
    }
}

#[cfg(test)]
mod tests {
    use super::*;

    fn told(text: &str) -> String {
        let lines = text.split_whitespace().collect::<Vec<_>>().join("\n");
        answers(&parse(&lines).unwrap())
    }

    fn last(text: &str) -> String {
        told(text).lines().last().unwrap().to_string()
    }

    #[test]
    fn texts_come_back() {
        let calls = parse("F0000\nread\n00001\nend\n").unwrap();
        assert_eq!(calls, [Call::Word(Word::new(15, 0)), Call::Read, Call::Word(Word::new(0, 1)), Call::End]);
        assert_eq!(text(&calls), "F0000\nread\n00001\nend\n");
        assert!(parse("F0000\nREAD\n").is_err());
        assert!(parse("F000\n").is_err());
    }

    /// The read call's numbers, in their order.
    #[test]
    fn reads_are_refused() {
        assert_eq!(last("read"), "read 3 0");
        assert_eq!(last("F0000 read"), "read 14 0");
        assert_eq!(last("F0000 E0001 read"), "read 6 0");
        assert_eq!(last("F0000 90001 D0000 D0000 D0000 read"), "read 6 0");
        assert_eq!(last("F0000 90000 D0000 D0000 D0000 D0000 read"), "read 14 0");
        assert_eq!(last("F0000 E0004 D0008 90001 D0000 D0000 D0000 D0000 read"), "read 0 65535");
        assert_eq!(last("F0000 90001 D0000 D0000 D0000 D0000 read read"), "read 14 0");
        assert_eq!(last("F0000 90001 D0000 D0000 D0000 D0000 F0000 read"), "read 14 0");
        // reads ask neither the enables nor the planes
        assert_eq!(last("F0000 E0004 D0008 E000A D0000 90005 D0000 D0000 D0000 D0000 read"), "read 0 65535");
    }

    /// With the corners swapped a picture is turned over.
    #[test]
    fn swapped_corners_flip() {
        let load = "F0000 E0004 D0004 90000 D0000 D0000 D0001 D0001 00001 00002 00003 00004 ";
        assert!(told(&format!("{} end", load)).ends_with("0 0 1 65535\n1 0 2 65535\n0 1 3 65535\n1 1 4 65535\n"));
        let over = told(&format!("{} 90001 D0001 D0001 D0000 D0000 read read read read", load));
        assert!(over.ends_with("read 0 4\nread 0 3\nread 0 2\nread 0 1\n"));
        let across = told(&format!("{} 90001 D0001 D0000 D0000 D0001 read read read read", load));
        assert!(across.ends_with("read 0 2\nread 0 1\nread 0 4\nread 0 3\n"));
    }

    /// In tiles pixel (5, 1) is place 16 + 4 + 1, and (0, 4) the first of the
    /// second band; a place is told by its row and column. INIT keeps the kind.
    #[test]
    fn tiles_are_four_by_four() {
        let load = "tiled F0000 E0004 D0004 90000 D0005 D0001 D0005 D0001 00007 90000 D0000 D0004 D0000 D0004 00008 end";
        assert!(told(load).ends_with("21 0 7 65535\n0 4 8 65535\n"));
        let read = "tiled F0000 E0004 D0004 90000 D0005 D0001 D0005 D0001 00007 90001 D0005 D0001 D0005 D0001 read";
        assert_eq!(last(read), "read 0 7");
        let again = "tiled F0000 F0100 E0004 D0004 90000 D0005 D0001 D0005 D0001 00007 end";
        assert!(told(again).ends_with("21 0 7 65535\n"));
        // after `end` rows lie one after the other again
        assert!(told(&format!("{} F0000 E0004 D0004 90000 D0005 D0001 D0005 D0001 00007 end", load)).ends_with("5 1 7 65535\n"));
    }

    /// 8,192 places are 25 rows of 320 and a rest: six whole bands, so that in
    /// tiles row 24 is not in use.
    #[test]
    fn only_whole_bands_are_in_use() {
        let read = |start: &str, row: &str| last(&format!("{} F0100 E0004 D0008 90001 D0000 D{} D0000 D{} read", start, row, row));
        assert_eq!(read("", "0018"), "read 0 65535");
        assert_eq!(read("tiled", "0018"), "read 0 0");
        assert_eq!(read("tiled", "0017"), "read 0 65535");
    }

    /// Outside the memory 0 is read and nothing stored, and the region moves
    /// on all the same.
    #[test]
    fn outside_the_memory() {
        let loaded = told("F0000 E0004 D0004 90000 D00FE D001F D0101 D001F 00007 00007 00007 00007 00007 end");
        assert!(loaded.ends_with("0 0\n14 0\n254 31 7 65535\n255 31 7 65535\n"));
        let above = told("F0000 E0004 D0008 90001 D0000 D001F D0000 D0020 read read read");
        assert!(above.ends_with("read 0 65535\nread 0 0\nread 14 0\n"));
    }
}
