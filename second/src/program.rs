//! A program under construction: words that are pushed one by one, with the
//! registers they leave, so that the generator knows what fits next.

use crate::commands::*;
use crate::transfers::picture;
use crate::random::Random;
use crate::registers::{Line, Open, Registers};
use crate::stream::{pack_words, Word};

/// The most words a stream of the drawing program can hold.
pub const MOST_WORDS: usize = 3276;
/// The most visible figures of one stream, so that asking the pixels around
/// each of them stays cheap.
const MOST_FIGURES: usize = 80;
/// The places of the picture that the streams are made for.
const PLACES: i64 = 8192;

/// The part of the picture that a figure's points are taken from.
#[derive(Clone, Copy)]
enum Region {
    Whole,
    Box { x: i64, y: i64, side: i64 },
}

pub struct Program {
    pub words: Vec<Word>,
    pub registers: Registers,
    pub random: Random,
    figures: usize,
    region: Region,
    /// Depths and intensities are mostly no more than this.
    span: i64,
    /// The line codes that INIT mostly takes.
    codes: Vec<i64>,
}

impl Program {
    pub fn new(mut random: Random) -> Program {
        let span = random.pick(&[3, 20, 1000, 65536, 65536]);
        let codes = match random.below(10) {
            0 => vec![1, 2, 3, 4],
            1 => vec![0, 8, 12, 28, 44, 45, 18, 22, 34, 38, 42],
            _ => vec![0],
        };
        Program {
            words: Vec::new(),
            registers: Registers::reset(),
            random,
            figures: 0,
            region: Region::Whole,
            span,
            codes,
        }
    }

    /// Adds a word, accepted or not.
    pub fn push(&mut self, command: i64, data: i64) {
        let word = Word::new(command, data);
        self.words.push(word);
        if let Ok(accepted) = step(&self.registers, word) {
            self.registers = accepted.registers;
            self.figures += usize::from(accepted.figure.is_some());
        }
    }

    /// Whether the machine would take this word now.
    pub fn would_take(&self, command: i64, data: i64) -> bool {
        refusal(&self.registers, Word::new(command, data)) == 0
    }

    pub fn bytes(&self) -> Vec<u8> {
        pack_words(&self.words)
    }

    /// How many pixels the open region has left.
    pub fn pixels_left(&self) -> i64 {
        self.registers.region.map_or(0, |region| region.pixels_left())
    }

    fn is_full_of_figures(&self) -> bool {
        self.figures >= MOST_FIGURES
    }

    // Opening and settings.

    pub fn subcommand(&mut self, number: i64, parameters: &[i64]) {
        self.push(AUX, number);
        for parameter in parameters {
            self.push(PARM, *parameter);
        }
    }

    pub fn init(&mut self, code: i64) {
        let unused = self.random.below(4) * 16384;
        let page = self.random.below(8);
        self.push(INIT, unused + code * 256 + page);
    }

    /// INIT and, mostly, both enables; every other time the depth test, and
    /// every third a section.
    pub fn opening(&mut self) {
        let code = self.random.below(self.codes.len() as i64) as usize;
        self.init(self.codes[code]);
        match self.random.below(20) {
            0 => {}
            1 => self.enables(),
            _ => self.subcommand(HCONTROL, &[6]),
        }
        if self.random.once_in(2) {
            self.subcommand(ZCONTROL, &[DEPTH_TEST]);
        }
        if self.random.once_in(3) {
            self.section_setting();
        }
    }

    /// HCONTROL, mostly with both enables on; of the other bits only bit 3,
    /// the memory of pictures, plays a part.
    fn enables(&mut self) {
        let others = self.random.below(65536) & HARDWARE_BITS & !6;
        let enables = self.random.pick(&[6, 6, 6, 6, 6, 6, 6, 6, 4, 4, 2, 0]);
        let hardware = if self.random.once_in(2) { enables } else { enables | others };
        self.subcommand(HCONTROL, &[hardware]);
    }

    /// One setting, each kind now and then.
    pub fn setting(&mut self) {
        match self.random.below(17) {
            0 | 1 => self.shading_setting(),
            2..=4 => self.line_mode_setting(),
            5 => {
                let data = self.random.pick(&[0, DEPTH_TEST, DEPTH_TEST, SECTIONING, DEPTH_BITS]);
                self.subcommand(ZCONTROL, &[data]);
            }
            6 => self.enables(),
            7 | 8 => self.transparency_setting(),
            9 | 10 => self.window_setting(),
            11 => {
                let (fore, back) = (self.intensity(), self.intensity());
                self.subcommand(COLOR, &[fore, back]);
            }
            12 | 13 => self.line_pattern_setting(),
            14 => self.planes_setting(),
            15 => self.section_setting(),
            _ => self.status_setting(),
        }
    }

    fn shading_setting(&mut self) {
        let mode = self.random.below(2);
        self.subcommand(PMODE, &[mode]);
    }

    /// A section through the depths in use, with sectioning and constant
    /// triangles on, so that some of what follows is cut.
    fn section_setting(&mut self) {
        let section = self.depth();
        let control = self.random.pick(&[SECTIONING, DEPTH_BITS]);
        self.subcommand(SECTION, &[section]);
        self.subcommand(ZCONTROL, &[control]);
        self.subcommand(PMODE, &[1]);
    }

    pub fn line_mode_setting(&mut self) {
        let mode = self.random.below(3);
        self.subcommand(LMODE, &[mode]);
    }

    pub fn status_setting(&mut self) {
        let status = self.random.below(4) * 16;
        self.subcommand(LSTATUS, &[status]);
    }

    fn transparency_setting(&mut self) {
        let any = self.random.below(65536);
        let pattern = self.random.pick(&[0xFFFF, 0xFFFF, 0x8000, 0xA5A5, 0x0001, 0x7FFE, 0, any, any, any]);
        self.subcommand(TPATTERN, &[pattern]);
    }

    fn line_pattern_setting(&mut self) {
        let (high, low) = (self.random.below(65536), self.random.below(65536));
        match self.random.below(5) {
            0 => self.subcommand(LPATTERN, &[0xFFFF, 0xFFFF]),
            1 => self.subcommand(LPATTERN, &[0xCCCC, 0xCCCC]),
            2 => self.subcommand(LPATTERN, &[0x8000, 0x0001]),
            _ => self.subcommand(LPATTERN, &[high, low]),
        }
    }

    fn planes_setting(&mut self) {
        let any = self.random.below(65536);
        let planes = self.random.pick(&[0xFFFF, 0xFFFF, 0xFFFF, 0x00FF, 0xFF00, 0, any]);
        self.subcommand(MASK, &[planes]);
    }

    /// The whole picture, a part of it, or now and then an empty window.
    fn window_setting(&mut self) {
        let (length, rows) = (self.length(), self.rows());
        match self.random.below(8) {
            0 | 1 => self.subcommand(WINDOW, &[0, LARGEST_BORDER, LARGEST_BORDER, 0, 0]),
            2 => self.empty_window(),
            3 => self.single_pixel_window(),
            _ => {
                let left = self.random.below(length / 2 + 1);
                let right = self.random.from_to(left, length + 10);
                let bottom = self.random.below(rows / 2 + 1);
                let top = self.random.from_to(bottom, rows + 5);
                self.subcommand(WINDOW, &[left, top, right, bottom, 0]);
            }
        }
    }

    fn empty_window(&mut self) {
        if self.random.once_in(2) {
            let left = self.random.from_to(1, self.length());
            self.subcommand(WINDOW, &[left, LARGEST_BORDER, left - 1, 0, 0]);
        } else {
            let bottom = self.random.from_to(1, self.rows() + 1);
            self.subcommand(WINDOW, &[0, bottom - 1, LARGEST_BORDER, bottom, 0]);
        }
    }

    fn single_pixel_window(&mut self) {
        let x = self.random.below(self.length());
        let y = self.random.below(self.rows());
        self.subcommand(WINDOW, &[x, y, x, y, 0]);
    }

    // Numbers and points.

    fn length(&self) -> i64 {
        self.registers.line_length
    }

    /// Rows in use, but at least 1.
    fn rows(&self) -> i64 {
        (PLACES / self.length()).max(1)
    }

    fn depth(&mut self) -> i64 {
        match self.random.below(12) {
            0 => self.random.below(65536),
            1 => self.random.pick(&[0, 1, 65534, 65535]),
            _ => self.random.below(self.span),
        }
    }

    /// An intensity or a colour; mostly not 0, as only such places print.
    pub fn intensity(&mut self) -> i64 {
        match self.random.below(12) {
            0 => self.random.below(65536),
            1 => self.random.pick(&[0, 1, 65534, 65535]),
            _ => self.random.from_to(1, self.span.min(65535)),
        }
    }

    /// Where the next figure lies: the whole picture or a small part.
    pub fn choose_region(&mut self) {
        let side = self.random.pick(&[1, 2, 3, 5, 8, 16, 40]);
        let x = self.random.below(self.length());
        let y = self.random.below(self.rows());
        self.region = match self.random.below(3) {
            0 => Region::Whole,
            1 => Region::Box { x: x % 16, y: y % 8, side },
            _ => Region::Box { x, y, side },
        };
    }

    pub fn x(&mut self) -> i64 {
        let length = self.length();
        let (start, side) = match self.region {
            Region::Whole => (0, length),
            Region::Box { x, side, .. } => (x, side),
        };
        self.coordinate(start, side, length)
    }

    pub fn y(&mut self) -> i64 {
        let rows = self.rows();
        let (start, side) = match self.region {
            Region::Whole => (0, rows),
            Region::Box { y, side, .. } => (y, side),
        };
        self.coordinate(start, side, rows)
    }

    /// Mostly in the region; now and then at or past the picture's border.
    fn coordinate(&mut self, start: i64, side: i64, end: i64) -> i64 {
        let coordinate = match self.random.below(40) {
            0 => LARGEST_COORDINATE,
            1 => self.random.below(LARGEST_COORDINATE + 1),
            2 | 3 => end + self.random.below(30),
            4 => end - 1,
            5 => 0,
            _ => start + self.random.below(side),
        };
        coordinate.min(LARGEST_COORDINATE)
    }

    /// Some of I, Z and Y, in any order; Y almost always.
    pub fn load_point(&mut self) {
        let (i, z, y) = (self.intensity(), self.depth(), self.y());
        let loads = match self.random.below(8) {
            0 => vec![(Y, y)],
            1 => vec![(Y, y), (I, i)],
            2 => vec![(Z, z), (Y, y)],
            3 => vec![(I, i), (Z, z)],
            4 => vec![(Y, y), (Z, z), (I, i)],
            _ => vec![(I, i), (Z, z), (Y, y)],
        };
        for (command, data) in loads {
            self.push(command, data);
        }
    }

    // Figures.

    /// Opens a figure with a point and this command.
    pub fn open(&mut self, command: i64) {
        self.choose_region();
        self.load_point();
        let x = self.x();
        self.push(command, x);
    }

    /// Adds a point with the command that fits the open figure, if any.
    pub fn add_point(&mut self) {
        self.load_point();
        let x = self.x();
        match self.registers.open {
            Open::Nothing => {}
            Open::Line(_) if self.registers.line_mode != 2 => self.push(PX, x),
            _ => self.push(X, x),
        }
    }

    /// A strip or a fan, with settings between its points now and then.
    fn triangles(&mut self, command: i64) {
        self.open(command);
        let points = self.random.pick(&[1, 2, 2, 2, 3, 4, 6]);
        for _ in 0..points {
            self.now_and_then_a_setting();
            self.add_point();
        }
    }

    fn polyline(&mut self) {
        if self.random.once_in(2) {
            self.line_mode_setting();
        }
        self.open(LX);
        self.start_of_line();
        let points = self.random.pick(&[1, 1, 2, 3, 4, 6]);
        for _ in 0..points {
            self.now_and_then_a_setting();
            self.add_point();
        }
        if self.random.once_in(2) {
            let status = self.random.pick(&[0x10, 0x10, 0x30]);
            self.subcommand(LSTATUS, &[status]);
            self.add_point();
        }
    }

    /// Visible as LX leaves it, visible by LSTATUS, or a hop.
    fn start_of_line(&mut self) {
        match self.random.below(4) {
            0 | 1 => {}
            2 => self.subcommand(LSTATUS, &[0]),
            _ => {
                self.hop();
                if !self.random.once_in(4) {
                    self.subcommand(LSTATUS, &[0]);
                }
            }
        }
    }

    /// A line through several bends: modes mixed, some segments invisible
    /// and some of no length, and now and then another pattern.
    fn bending_line(&mut self) {
        self.line_pattern_setting();
        self.open(LX);
        let mostly = self.random.pick(&[0, 1, 1, 2]);
        self.subcommand(LMODE, &[mostly]);
        self.subcommand(LSTATUS, &[0]);
        for _ in 0..self.random.from_to(2, 9) {
            match self.random.below(8) {
                0 => self.line_mode_setting(),
                1 => self.subcommand(LSTATUS, &[0x20]),
                2 | 3 => self.subcommand(LSTATUS, &[0]),
                4 => self.line_pattern_setting(),
                _ => {}
            }
            if self.random.once_in(5) {
                self.same_point();
            } else {
                self.add_point();
            }
        }
    }

    /// An invisible segment, by INV 1.
    fn hop(&mut self) {
        self.subcommand(LSTATUS, &[INVISIBLE]);
        self.add_point();
    }

    /// The point where the open line stands, once more.
    fn same_point(&mut self) {
        if let Open::Line(Line { end, .. }) = self.registers.open {
            self.push(Y, end.y);
            let command = if self.registers.line_mode == 2 { X } else { PX };
            self.push(command, end.x);
        }
    }

    /// A face and lines of mode 2 along its sides, either first, with the
    /// depth test on. Their corners have the same depths, now and then that
    /// of a fresh picture, so that many pixels tie.
    fn outlined_face(&mut self) {
        self.subcommand(ZCONTROL, &[DEPTH_TEST]);
        self.subcommand(LMODE, &[2]);
        self.choose_region();
        let (far, slope) = (self.random.once_in(3), self.random.once_in(3));
        let level = if far { 65535 } else { self.depth() };
        let mut corners = Vec::new();
        for _ in 0..3 {
            let z = if slope { self.depth() } else { level };
            corners.push((self.x(), self.y(), z));
        }
        let outline = [corners.as_slice(), &corners[..1]].concat();
        if self.random.once_in(3) {
            self.figure_through(LX, &outline);
            self.figure_through(T1X, &corners);
        } else {
            self.figure_through(T1X, &corners);
            self.figure_through(LX, &outline);
        }
    }

    /// A figure of one intensity through points, each with its depth.
    fn figure_through(&mut self, opening: i64, points: &[(i64, i64, i64)]) {
        let i = self.intensity();
        self.push(I, i);
        let mut command = opening;
        for (x, y, z) in points {
            self.push(Z, *z);
            self.push(Y, *y);
            self.push(command, *x);
            command = X;
        }
    }

    fn now_and_then_a_setting(&mut self) {
        if self.random.once_in(6) {
            match self.random.below(4) {
                0 => self.shading_setting(),
                1 => self.line_mode_setting(),
                _ => self.setting(),
            }
        }
    }

    /// Words that draw nothing: invisible segments, first points, loads.
    fn quiet_piece(&mut self) {
        match self.random.below(4) {
            0 => {
                self.open(LX);
                self.hop();
            }
            1 => self.open(T1X),
            2 => self.open(T2X),
            _ => self.load_point(),
        }
        if self.random.once_in(3) {
            self.setting();
        }
    }

    /// Puts settings that hide much back, so that what follows shows.
    fn uncover(&mut self) {
        self.subcommand(WINDOW, &[0, LARGEST_BORDER, LARGEST_BORDER, 0, 0]);
        self.subcommand(HCONTROL, &[6]);
        self.subcommand(MASK, &[0xFFFF]);
    }

    /// A piece of a drawing.
    pub fn piece(&mut self) {
        if self.is_full_of_figures() {
            return self.quiet_piece();
        }
        match self.random.below(63) {
            0 => self.opening(),
            1..=3 => self.uncover(),
            4..=17 => self.setting(),
            18..=31 => self.triangles(T1X),
            32..=43 => self.triangles(T2X),
            44..=50 => self.polyline(),
            51..=54 => self.bending_line(),
            55..=57 => self.outlined_face(),
            58..=60 => picture(self),
            _ => self.quiet_piece(),
        }
    }

    /// Pieces of a drawing until there are at least so many words.
    pub fn draw_until(&mut self, words: usize) {
        while self.words.len() < words {
            self.piece();
        }
    }

    /// Opening, pieces, and no more words than a stream can hold.
    pub fn drawing(&mut self, words: usize) {
        self.opening();
        self.draw_until(words);
        self.words.truncate(MOST_WORDS);
    }
}
