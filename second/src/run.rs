//! Running a packed stream from reset, in either layout.

use crate::commands;
use crate::figures::Figure;
use crate::picture::Picture;
use crate::registers::{Layout, Registers};
use crate::stream;

/// What a run tells, and the line length it leaves.
#[derive(Clone, Debug, PartialEq, Eq)]
pub struct Outcome {
    /// The index of the refused word, or the number of words.
    pub words: i64,
    pub refusal: i64,
    /// The sum of the counts modulo 2^64.
    pub passed: u64,
    pub line_length: i64,
}

/// Runs a packed stream over a picture. Refusal 2 cannot come: a picture's
/// two memories have the same length.
pub fn run(bytes: &[u8], picture: &mut Picture) -> Outcome {
    watched(bytes, picture, |_, _, _| ())
}

/// The same over memories in tiles.
pub fn run_tiled(bytes: &[u8], picture: &mut Picture) -> Outcome {
    from(Registers::reset_to(Layout::Tiles), bytes, picture, |_, _, _| ())
}

/// The same, with a look at each completed figure, at the registers and at
/// the picture before it is drawn.
pub fn watched(bytes: &[u8], picture: &mut Picture, look: impl FnMut(&Figure, &Registers, &Picture)) -> Outcome {
    from(Registers::reset(), bytes, picture, look)
}

fn from(mut registers: Registers, bytes: &[u8], picture: &mut Picture, mut look: impl FnMut(&Figure, &Registers, &Picture)) -> Outcome {
    let mut outcome = Outcome { words: 0, refusal: 0, passed: 0, line_length: registers.line_length };
    let words = match stream::unpack(bytes) {
        Ok(words) => words,
        Err(refusal) => return Outcome { refusal, ..outcome },
    };
    for word in words {
        match commands::step(&registers, word) {
            Ok(accepted) => {
                if let Some(figure) = &accepted.figure {
                    look(figure, &accepted.registers, picture);
                }
                outcome.passed = outcome.passed.wrapping_add(picture.take(&accepted));
                registers = accepted.registers;
                outcome.words += 1;
            }
            Err(refusal) => {
                outcome.refusal = refusal;
                break;
            }
        }
    }
    outcome.line_length = registers.line_length;
    outcome
}
