//! The two memories, and what a figure does to them.

use crate::commands::Accepted;
use crate::figures::{Figure, Numbers};
use crate::registers::{bit, Layout, Registers, Window};
use std::cmp::Ordering;

/// The most rows that are ever in use (document 02, [12]).
const MOST_ROWS: i64 = 16384;
/// The depth that all places start with.
const FARTHEST: i64 = 65535;

/// The I memory and the Z memory, of one length.
#[derive(Clone, Debug, PartialEq, Eq)]
pub struct Picture {
    pub i: Vec<i64>,
    pub z: Vec<i64>,
    /// How many pixels passed at equal depth, for `shares` to tell.
    pub ties: Ties,
}

/// Pixels that passed at the depth that a place starts with, and at a depth
/// that was drawn.
#[derive(Clone, Copy, Debug, Default, PartialEq, Eq)]
pub struct Ties {
    pub with_start: u64,
    pub with_drawn: u64,
}

/// A pixel of a picture that goes to memory.
#[derive(Clone, Copy, Debug, PartialEq, Eq)]
pub struct Pixel {
    pub x: i64,
    pub y: i64,
    pub value: i64,
}

impl Picture {
    /// I all 0, Z all 65535.
    pub fn cleared(places: usize) -> Picture {
        Picture { i: vec![0; places], z: vec![FARTHEST; places], ties: Ties::default() }
    }

    /// The whole rows that fit, in tiles those of the whole bands of four, and
    /// for a unit those of its columns; at most 16,384.
    pub fn rows(&self, registers: &Registers) -> i64 {
        let (places, line_length) = (self.i.len() as i64, registers.line_length);
        let rows = match registers.layout {
            Layout::Rows => places / line_length,
            Layout::Tiles => places / line_length - places / line_length % 4,
            Layout::Columns { of, .. } => places / (line_length / of),
        };
        rows.min(MOST_ROWS)
    }

    /// Draws a figure under the settings of the registers, and counts the
    /// pixels passed.
    pub fn draw(&mut self, figure: &Figure, registers: &Registers) -> u64 {
        let mut passed = 0;
        let points = figure.points();
        let highest_y = points.iter().map(|point| point.y).max().unwrap_or(0);
        let highest_x = points.iter().map(|point| point.x).max().unwrap_or(0);
        let lowest_y = points.iter().map(|point| point.y).min().unwrap_or(0);
        let lowest_x = points.iter().map(|point| point.x).min().unwrap_or(0);
        for y in lowest_y..self.rows(registers).min(highest_y + 1) {
            for x in lowest_x..registers.line_length.min(highest_x + 1) {
                if let Some(numbers) = offered(figure, registers, x, y) {
                    if self.offer(figure, numbers, registers, x, y) {
                        passed += 1;
                    }
                }
            }
        }
        passed
    }

    /// Every pixel that a figure offers, as whether it would pass over what
    /// stands; no figure offers a pixel twice, so none is in another's way.
    pub fn fates(&self, figure: &Figure, registers: &Registers) -> Vec<bool> {
        let line_length = registers.line_length;
        let pixels = 0..line_length * self.rows(registers);
        pixels
            .filter_map(|pixel| {
                let (x, y) = (pixel % line_length, pixel / line_length);
                let numbers = offered(figure, registers, x, y)?;
                Some(passes(figure, numbers, registers, self.z[place(x, y, registers)]))
            })
            .collect()
    }

    /// Whether a figure offers pixel (x, y) and it would pass over what stands.
    pub fn passes_at(&self, figure: &Figure, registers: &Registers, x: i64, y: i64) -> bool {
        let Some(place) = self.place(x, y, registers) else { return false };
        offered(figure, registers, x, y).is_some_and(|numbers| passes(figure, numbers, registers, self.z[place]))
    }

    /// Whether a pixel is inside the memory.
    pub fn has(&self, x: i64, y: i64, registers: &Registers) -> bool {
        self.place(x, y, registers).is_some()
    }

    /// I and Z at a pixel; both 0 outside the memory.
    pub fn numbers(&self, x: i64, y: i64, registers: &Registers) -> (i64, i64) {
        self.place(x, y, registers).map_or((0, 0), |place| (self.i[place], self.z[place]))
    }

    /// What an accepted word does to the picture: it draws the figure that it
    /// completes, or stores a pixel. Tells how many pixels passed.
    pub fn take(&mut self, accepted: &Accepted) -> u64 {
        if let Some(pixel) = &accepted.pixel {
            self.store(pixel, &accepted.registers);
        }
        accepted.figure.as_ref().map_or(0, |figure| self.draw(figure, &accepted.registers))
    }

    /// Where a pixel stands, if it is inside the memory.
    fn place(&self, x: i64, y: i64, registers: &Registers) -> Option<usize> {
        let inside = x < registers.line_length && y < self.rows(registers);
        inside.then_some(place(x, y, registers))
    }

    /// A pixel of a picture is stored by the write enables and, in I, by the
    /// planes; neither window nor depth test is asked.
    pub fn store(&mut self, pixel: &Pixel, registers: &Registers) {
        let Some(place) = self.place(pixel.x, pixel.y, registers) else { return };
        if registers.pictures_are_depths() {
            if registers.z_enabled() {
                self.z[place] = pixel.value;
            }
        } else if registers.i_enabled() {
            self.i[place] = in_planes(self.i[place], pixel.value, registers.planes);
        }
    }

    /// The number at a pixel of a picture; 0 outside the memory.
    pub fn read(&self, x: i64, y: i64, registers: &Registers) -> i64 {
        match self.place(x, y, registers) {
            None => 0,
            Some(place) if registers.pictures_are_depths() => self.z[place],
            Some(place) => self.i[place],
        }
    }

    /// Offers one pixel, which is inside the memory, and stores it if it
    /// passes.
    fn offer(&mut self, figure: &Figure, numbers: Numbers, registers: &Registers, x: i64, y: i64) -> bool {
        let place = place(x, y, registers);
        if !passes(figure, numbers, registers, self.z[place]) {
            return false;
        }
        if registers.depth_test && numbers.z == Some(self.z[place]) {
            self.count_tie(place);
        }
        if registers.i_enabled() {
            self.i[place] = in_planes(self.i[place], numbers.i, registers.planes);
        }
        if let (Some(depth), true) = (numbers.z, registers.z_enabled()) {
            self.z[place] = depth;
        }
        true
    }

    fn count_tie(&mut self, place: usize) {
        if self.z[place] == FARTHEST {
            self.ties.with_start += 1;
        } else {
            self.ties.with_drawn += 1;
        }
    }
}

/// Where a pixel inside the memory stands. In tiles a band of four rows has
/// four times the line length of places, and each tile along it sixteen, row
/// by row. A unit is asked for its own columns only.
fn place(x: i64, y: i64, registers: &Registers) -> usize {
    let line_length = registers.line_length;
    let place = match registers.layout {
        Layout::Rows => line_length * y + x,
        Layout::Tiles => {
            let (band, tile) = (y.div_euclid(4), x.div_euclid(4));
            4 * line_length * band + 16 * tile + 4 * (y - 4 * band) + (x - 4 * tile)
        }
        Layout::Columns { of, .. } => y * (line_length / of) + x / of,
    };
    place as usize
}

/// The numbers that a figure offers at a pixel of the memory, if it is in a
/// column of the unit and the window, the transparency pattern and the section
/// let it.
fn offered(figure: &Figure, registers: &Registers, x: i64, y: i64) -> Option<Numbers> {
    let shown = inside_window(&registers.window, x, y) && unmasked(figure, registers.transparency, x, y);
    if shown && has_column(registers.layout, x) {
        figure.at(registers, x, y).filter(|numbers| !is_cut(figure, *numbers, registers))
    } else {
        None
    }
}

/// Unit u of a board of N has the columns x with x mod N = u (document 02,
/// [8]); one chip has all.
fn has_column(layout: Layout, x: i64) -> bool {
    match layout {
        Layout::Rows | Layout::Tiles => true,
        Layout::Columns { unit, of } => x % of == unit,
    }
}

/// With sectioning on, a constant triangle's pixel is cut where its depth is
/// greater than the section depth, depth test or not (document 02, [7]).
fn is_cut(figure: &Figure, numbers: Numbers, registers: &Registers) -> bool {
    registers.sectioning && figure.is_sectioned() && numbers.z > Some(registers.section)
}

/// Borders counted. Left above right or bottom above top holds no pixel.
fn inside_window(window: &Window, x: i64, y: i64) -> bool {
    window.left <= x && x <= window.right && window.bottom <= y && y <= window.top
}

fn unmasked(figure: &Figure, transparency: i64, x: i64, y: i64) -> bool {
    !figure.is_patterned() || transparency_keeps(transparency, x, y)
}

/// Bit 4·(y mod 4) + (x mod 4) of the transparency pattern.
pub fn transparency_keeps(transparency: i64, x: i64, y: i64) -> bool {
    bit(transparency, 4 * (y % 4) + x % 4)
}

/// With the depth test on, what has a depth passes where that is nearer than
/// the old one; at equal depth a mode 2 line passes and a triangle does not
/// (document 02, [10]). Everything else offered passes. The old depth is read
/// with Z writing off too (docs/READINGS.md, "Figures").
fn passes(figure: &Figure, numbers: Numbers, registers: &Registers, old_depth: i64) -> bool {
    match numbers.z {
        Some(depth) if registers.depth_test => match depth.cmp(&old_depth) {
            Ordering::Less => true,
            Ordering::Equal => matches!(figure, Figure::Segment { .. }),
            Ordering::Greater => false,
        },
        _ => true,
    }
}

/// The new number in the set planes, the old one in the others.
fn in_planes(old: i64, new: i64, planes: i64) -> i64 {
    (0..16)
        .map(|plane| {
            let from = if bit(planes, plane) { new } else { old };
            i64::from(bit(from, plane)) * 2_i64.pow(plane as u32)
        })
        .sum()
}
