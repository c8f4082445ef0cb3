//! Random words and reads by seed: pictures that are loaded, saved, saved
//! and reloaded, and calls that are refused; every third seed or so over
//! tiles. Refused words are passed over there, so that they may stand
//! anywhere.

use crate::commands::*;
use crate::transfers::{bad_picture, open_region, picture, picture_settings, transfer_without_region};
use crate::program::Program;
use crate::random::Random;
use crate::seeds::write_file;
use crate::registers::Layout;
use crate::strobes::{answers, text, Call, Machine};
use std::path::Path;

/// Writes `calls`, the calls of some seeds, and `expected`, what they tell.
pub fn write(first: u64, count: u64, directory: &str) -> Result<(), String> {
    let calls: Vec<Call> = (first..first + count).flat_map(script).collect();
    write_file(&Path::new(directory).join("calls"), text(&calls).as_bytes())?;
    write_file(&Path::new(directory).join("expected"), answers(&calls).as_bytes())
}

/// A program whose words are calls, with reads between them, and the machine
/// after them.
struct Script {
    program: Program,
    machine: Machine,
    calls: Vec<Call>,
}

/// The calls of a seed.
pub fn script(seed: u64) -> Vec<Call> {
    let mut program = Program::new(Random::new(seed));
    let tiled = program.random.once_in(3);
    let layout = if tiled { Layout::Tiles } else { Layout::Rows };
    let mut script = Script { program, machine: Machine::reset_to(layout), calls: Vec::new() };
    if tiled {
        script.calls.push(Call::Tiled);
    }
    script.program.registers = script.machine.registers.clone();
    if script.program.random.once_in(8) {
        script.read();
    }
    script.program.opening();
    let calls = script.program.random.from_to(60, 700) as usize;
    while script.calls.len() < calls {
        script.piece();
    }
    script.calls.push(Call::End);
    script.calls
}

impl Script {
    /// The words so far become calls.
    fn flush(&mut self) {
        for word in std::mem::take(&mut self.program.words) {
            self.machine.take(word);
            self.calls.push(Call::Word(word));
        }
        self.program.registers = self.machine.registers.clone();
    }

    /// A read, and the pixel that it gives.
    fn read(&mut self) -> i64 {
        self.flush();
        self.calls.push(Call::Read);
        let (_, pixel) = self.machine.read();
        self.program.registers = self.machine.registers.clone();
        pixel
    }

    fn piece(&mut self) {
        match self.program.random.below(10) {
            0..=2 => self.program.piece(),
            3 | 4 => picture(&mut self.program),
            5 | 6 => {
                self.save();
            }
            7 => self.save_and_reload(),
            8 => self.refused_call(),
            _ => self.reads_among_words(),
        }
        self.flush();
    }

    /// A region from memory, and the pixels that are read: all of them or
    /// fewer, and now and then one too many.
    fn save(&mut self) -> Vec<i64> {
        picture_settings(&mut self.program);
        open_region(&mut self.program, 1);
        let left = self.program.pixels_left().min(120);
        self.flush();
        let reads = match self.program.random.below(6) {
            0 => self.program.random.below(left + 1),
            1 => left + 1,
            _ => left,
        };
        (0..reads).map(|_| self.read()).collect()
    }

    /// The same corners once more, to memory, and what was read; now and
    /// then with other planes and enables.
    fn save_and_reload(&mut self) {
        let pixels = self.save();
        let corners: Vec<i64> = self.calls.iter().filter_map(corner_word).collect();
        if self.program.random.once_in(3) {
            self.program.setting();
        }
        self.program.push(IMG, 0);
        for corner in &corners[corners.len() - 4..] {
            self.program.push(PARM, *corner);
        }
        for pixel in pixels {
            self.program.push(PTRN, pixel);
        }
    }

    fn refused_call(&mut self) {
        match self.program.random.below(5) {
            0 => transfer_without_region(&mut self.program),
            1 => self.refused_region(),
            2 => {
                open_region(&mut self.program, 0);
                self.read();
            }
            3 => {
                self.program.push(AUX, WINDOW);
                self.read();
                for border in [0, LARGEST_BORDER, LARGEST_BORDER, 0, 0] {
                    self.program.push(PARM, border);
                }
            }
            _ => {
                self.program.opening();
                self.read();
            }
        }
    }

    /// A region that is refused keeps the old one. What is awaited after it
    /// is given, so that other words are taken again.
    fn refused_region(&mut self) {
        let direction = self.program.random.below(2);
        open_region(&mut self.program, direction);
        bad_picture(&mut self.program);
        self.read();
        self.program.push(PTRN, 77);
        while self.program.registers.awaiting.is_some() {
            self.program.push(PARM, 0);
        }
        self.read();
        self.program.push(PTRN, 78);
    }

    /// A read here and there while a region is open; figures and regions do
    /// not drop each other.
    fn reads_among_words(&mut self) {
        open_region(&mut self.program, 1);
        for _ in 0..self.program.random.from_to(1, 5) {
            self.program.piece();
            self.read();
        }
    }
}

/// The data of a call that is PARM.
fn corner_word(call: &Call) -> Option<i64> {
    match call {
        Call::Word(word) if word.command == PARM => Some(word.data),
        _ => None,
    }
}
