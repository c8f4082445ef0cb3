//! What the figures and the pictures' pixels of random streams meet: a kind
//! that the generator never made would be compared with nothing.

use crate::commands::{step, LARGEST_COORDINATE};
use crate::figures::{follows_dashes, since_lx, Figure};
use crate::picture::Pixel;
use crate::printing::PLACES;
use crate::regions::Region;
use crate::registers::{Made, Open, Registers, CONSTANT};
use crate::stream::unpack;

/// A question about a figure and the registers that it is drawn under.
type Question = fn(&Registers, &Figure) -> bool;

const SITUATIONS: [(&str, Question); 15] = [
    ("constant triangle cut, depth test on", |r, f| r.depth_test && past(r, f) && is_constant(f)),
    ("constant triangle cut, depth test off", |r, f| !r.depth_test && past(r, f) && is_constant(f)),
    ("constant triangle at the section depth", |r, f| r.sectioning && depth(f) == Some(r.section) && is_constant(f)),
    ("constant triangle nearer than the section", |r, f| r.sectioning && depth(f) < Some(r.section) && is_constant(f)),
    ("constant triangle past a section that is off", |r, f| !r.sectioning && depth(f) > Some(r.section) && is_constant(f)),
    ("Gouraud triangle past the section", |r, f| past(r, f) && !is_constant(f)),
    ("dashes joined to dashes, inside the pattern", |_, f| flat(f).is_some_and(|made| follows_dashes(made) && inside(made))),
    ("dashes after an invisible segment", |_, f| flat(f).is_some_and(|made| inside(made) && hides(made.last()))),
    ("dashes after a segment of mode 2", |_, f| flat(f).is_some_and(|made| inside(made) && deep(made.last()))),
    ("dashes after dashes of no length", |_, f| flat(f).is_some_and(|made| follows_dashes(made) && still(made.last()))),
    ("dashes of no length joined to dashes", |_, f| is_still(f) && flat(f).is_some_and(follows_dashes)),
    ("dashes of no length that offer their point", |_, f| is_still(f) && flat(f).is_some_and(|made| inside(made) && !follows_dashes(made))),
    ("triangle to the largest coordinate", |_, f| depth(f).is_some() && is_far(f)),
    ("segment to the largest coordinate", |_, f| depth(f).is_none() && is_far(f)),
    ("mode 2 after dashes", |_, f| matches!(f, Figure::Segment { mode: 2, before, .. } if follows_dashes(before))),
];

/// A question about a pixel that PTRN brings to a region (document 02, [1]).
type Transfer = fn(&Registers, &Region, &Pixel) -> bool;

const TRANSFERS: [(&str, Transfer); 10] = [
    ("pixel to I", |r, _, p| in_memory(r, p) && !r.pictures_are_depths() && r.i_enabled()),
    ("pixel to Z", |r, _, p| in_memory(r, p) && r.pictures_are_depths() && r.z_enabled()),
    ("pixel to some planes", |r, _, p| in_memory(r, p) && !r.pictures_are_depths() && ![0, 0xFFFF].contains(&r.planes)),
    ("pixel that is not enabled", |r, _, p| in_memory(r, p) && !(if r.pictures_are_depths() { r.z_enabled() } else { r.i_enabled() })),
    ("pixel outside the memory", |r, _, p| !in_memory(r, p)),
    ("pixel at the largest coordinate", |_, _, p| p.x.max(p.y) == LARGEST_COORDINATE),
    ("pixel outside the window", |r, _, p| in_memory(r, p) && (p.x < r.window.left || p.x > r.window.right)),
    ("pixel of a region to the left", |_, g, _| g.first.0 > g.second.0),
    ("pixel of a region downward", |_, g, _| g.first.1 > g.second.1),
    ("pixel over an open figure", |r, _, _| !matches!(r.open, Open::Nothing)),
];

fn in_memory(registers: &Registers, pixel: &Pixel) -> bool {
    pixel.x < registers.line_length && pixel.y < PLACES as i64 / registers.line_length
}

/// The depth of a triangle's completing vertex.
fn depth(figure: &Figure) -> Option<i64> {
    match figure {
        Figure::Triangle { corners, .. } => Some(corners[2].z),
        Figure::Segment { .. } => None,
    }
}

/// A figure with a point at the largest coordinate.
fn is_far(figure: &Figure) -> bool {
    figure.points().iter().any(|point| point.x.max(point.y) == LARGEST_COORDINATE)
}

fn is_constant(figure: &Figure) -> bool {
    matches!(figure, Figure::Triangle { shading: CONSTANT, .. })
}

fn past(registers: &Registers, figure: &Figure) -> bool {
    registers.sectioning && depth(figure) > Some(registers.section)
}

/// Of a segment of mode 0 or 1, those that its line has made before it.
fn flat(figure: &Figure) -> Option<&[Made]> {
    match figure {
        Figure::Segment { mode: 0 | 1, before, .. } => Some(before),
        _ => None,
    }
}

/// The next segment does not begin at bit 31.
fn inside(made: &[Made]) -> bool {
    since_lx(made) % 32 != 0
}

fn hides(last: Option<&Made>) -> bool {
    matches!(last, Some(Made { visible: false, .. }))
}

fn deep(last: Option<&Made>) -> bool {
    matches!(last, Some(Made { visible: true, mode: 2, .. }))
}

fn still(last: Option<&Made>) -> bool {
    matches!(last, Some(Made { steps: 0, .. }))
}

/// A segment of no length.
fn is_still(figure: &Figure) -> bool {
    matches!(figure, Figure::Segment { from, to, .. } if (from.x, from.y) == (to.x, to.y))
}

/// How many figures, and how many pixels, met each situation.
pub struct Situations {
    counts: [u64; SITUATIONS.len()],
    pixels: [u64; TRANSFERS.len()],
    /// Streams with a figure that reaches the largest coordinate.
    pub far: u64,
}

impl Situations {
    pub fn none() -> Situations {
        Situations { counts: [0; SITUATIONS.len()], pixels: [0; TRANSFERS.len()], far: 0 }
    }

    /// Counts the visible figures that a stream completes, and the pixels that
    /// it brings, before a refusal.
    pub fn add(&mut self, bytes: &[u8]) {
        let mut registers = Registers::reset();
        let mut is_near = true;
        for word in unpack(bytes).unwrap_or_default() {
            let Ok(accepted) = step(&registers, word) else { return };
            if let (Some(pixel), Some(region)) = (&accepted.pixel, &registers.region) {
                for (count, (_, question)) in self.pixels.iter_mut().zip(TRANSFERS) {
                    *count += u64::from(question(&registers, region, pixel));
                }
            }
            registers = accepted.registers;
            if let Some(figure) = accepted.figure {
                self.far += u64::from(is_near && is_far(&figure));
                is_near &= !is_far(&figure);
                for (count, (_, question)) in self.counts.iter_mut().zip(SITUATIONS) {
                    *count += u64::from(question(&registers, &figure));
                }
            }
        }
    }

    pub fn text(&self) -> String {
        let figures = self.counts.iter().zip(SITUATIONS).map(|(count, (name, _))| format!("{}: figures {}\n", name, count));
        let pixels = self.pixels.iter().zip(TRANSFERS).map(|(count, (name, _))| format!("{}: {}\n", name, count));
        figures.chain(pixels).collect()
    }

    /// Whether each situation came.
    pub fn all_came(&self) -> bool {
        self.counts.iter().chain(&self.pixels).all(|count| *count > 0)
    }
}
