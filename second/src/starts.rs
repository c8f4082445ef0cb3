//! How the lines of a stream start: visible as LX leaves them, or with a
//! hop, a first segment that LSTATUS made invisible.

use crate::commands::*;
use crate::registers::{Open, Registers};
use crate::stream::{unpack, Word};

/// Whether a stream has a line of either start.
#[derive(Default)]
pub struct Starts {
    pub shown: bool,
    pub hopped: bool,
}

/// An opened line that has no segment yet.
#[derive(Clone, Copy, PartialEq)]
enum Opened {
    /// LSTATUS has not come since LX.
    AsLeft,
    ByStatus,
}

/// The starts among the words of a stream that are taken.
pub fn starts(bytes: &[u8]) -> Starts {
    let mut starts = Starts::default();
    let mut registers = Registers::reset();
    let mut line = None;
    for word in unpack(bytes).unwrap_or_default() {
        let Ok(accepted) = step(&registers, word) else { break };
        if completes_segment(&registers, word) {
            starts.shown |= line == Some(Opened::AsLeft) && !registers.invisible;
            starts.hopped |= line.is_some() && registers.invisible;
        }
        line = line_after(line, &registers, word);
        registers = accepted.registers;
    }
    starts
}

fn completes_segment(registers: &Registers, word: Word) -> bool {
    [X, PX].contains(&word.command) && matches!(registers.open, Open::Line(_))
}

fn line_after(line: Option<Opened>, registers: &Registers, word: Word) -> Option<Opened> {
    let for_status = registers.awaiting.as_ref().is_some_and(|awaiting| awaiting.subcommand == LSTATUS);
    match word.command {
        LX => Some(Opened::AsLeft),
        PARM if for_status => line.map(|_| Opened::ByStatus),
        INIT | T1X | T2X | X | PX => None,
        _ => line,
    }
}

#[cfg(test)]
mod tests {
    use super::*;
    use crate::edges::packed;

    fn both(words: &str) -> (bool, bool) {
        let starts = starts(&packed(words));
        (starts.shown, starts.hopped)
    }

    #[test]
    fn starts_are_told_apart() {
        assert_eq!(both("F0000 80000 B0005"), (true, false));
        assert_eq!(both("F0000 80000 E000C D0020 B0005 B0006"), (false, true));
        assert_eq!(both("F0000 80000 E000C D0000 B0005 E000C D0020 B0006"), (false, false));
        assert_eq!(both("F0000 80000 E000C D0020 80000 B0005"), (true, false));
        assert_eq!(both("F0000 80000 50000 40005"), (false, false));
    }
}
