//! The figures, each as a question that is put to one pixel: does the
//! figure hold it, and with which numbers?

use crate::registers::{bit, Made, Registers, Vertex, CONSTANT};

/// A completed figure, with the mode of the moment it was completed.
#[derive(Clone, Debug, PartialEq, Eq)]
pub enum Figure {
    /// The corners in the order they came; the last is the completing one.
    Triangle { corners: [Vertex; 3], shading: i64 },
    /// `before` has the segments that the line has made since LX.
    Segment { from: Vertex, to: Vertex, mode: i64, before: Vec<Made> },
}

/// The numbers that a figure has at a pixel. Lines of modes 0 and 1 have no
/// depth.
#[derive(Clone, Copy, Debug, PartialEq, Eq)]
pub struct Numbers {
    pub i: i64,
    pub z: Option<i64>,
}

impl Figure {
    /// All points the figure is spanned by; no pixel of the figure lies
    /// outside the upright rectangle around them.
    pub fn points(&self) -> Vec<Vertex> {
        match self {
            Figure::Triangle { corners, .. } => corners.to_vec(),
            Figure::Segment { from, to, .. } => vec![*from, *to],
        }
    }

    /// Whether the transparency pattern applies: to constant triangles and
    /// lines of modes 0 and 1 only.
    pub fn is_patterned(&self) -> bool {
        match self {
            Figure::Triangle { shading, .. } => *shading == CONSTANT,
            Figure::Segment { mode, .. } => *mode != 2,
        }
    }

    /// Whether the section applies: to constant triangles only (document 02,
    /// [7]).
    pub fn is_sectioned(&self) -> bool {
        matches!(self, Figure::Triangle { shading: CONSTANT, .. })
    }

    /// The numbers at a pixel, if the pixel belongs to the figure and the
    /// figure has something to write there. Colours and line pattern come
    /// from the registers.
    pub fn at(&self, registers: &Registers, x: i64, y: i64) -> Option<Numbers> {
        match self {
            Figure::Triangle { corners, shading } => triangle_at(corners, *shading, x, y),
            Figure::Segment { from, to, mode: 2, .. } => deep_segment_at(*from, *to, x, y),
            Figure::Segment { from, to, mode, before } => {
                let k = step_at(*from, *to, x, y).filter(|k| *k > 0 || !follows_dashes(before))?;
                dash_at(since_lx(before) + k, *mode, registers)
            }
        }
    }
}

/// (bx−ax)(py−ay) − (by−ay)(px−ax), for the edge from a to b and pixel p.
fn edge(a: Vertex, b: Vertex, px: i64, py: i64) -> i64 {
    (b.x - a.x) * (py - a.y) - (b.y - a.y) * (px - a.x)
}

/// The corners named so that they turn anticlockwise, with the doubled
/// area, or nothing if they lie on one line.
fn anticlockwise(corners: &[Vertex; 3]) -> Option<([Vertex; 3], i64)> {
    let [a, b, c] = *corners;
    let doubled = edge(a, b, c.x, c.y);
    match doubled.signum() {
        1 => Some(([a, b, c], doubled)),
        -1 => Some(([a, c, b], -doubled)),
        _ => None,
    }
}

/// Whether a pixel lies on the inner side of the edge from a to b: the
/// expression is positive, or is zero on an edge that runs downward or runs
/// level to the right.
fn inside_edge(a: Vertex, b: Vertex, x: i64, y: i64) -> bool {
    let downward = b.y < a.y;
    let level_to_the_right = b.y == a.y && b.x > a.x;
    let value = edge(a, b, x, y);
    value > 0 || value == 0 && (downward || level_to_the_right)
}

fn triangle_at(corners: &[Vertex; 3], shading: i64, x: i64, y: i64) -> Option<Numbers> {
    let ([a, b, c], doubled) = anticlockwise(corners)?;
    let covered = inside_edge(a, b, x, y) && inside_edge(b, c, x, y) && inside_edge(c, a, x, y);
    if !covered {
        return None;
    }
    if shading == CONSTANT {
        let completing = corners[2];
        return Some(Numbers { i: completing.i, z: Some(completing.z) });
    }
    // The expression for the edge opposite each corner.
    let weights = [edge(b, c, x, y), edge(c, a, x, y), edge(a, b, x, y)];
    let i = shaded([a.i, b.i, c.i], weights, doubled);
    let z = shaded([a.z, b.z, c.z], weights, doubled);
    Some(Numbers { i, z: Some(z) })
}

/// (2N + D) divided by 2D, rounded down.
fn shaded(numbers: [i64; 3], weights: [i64; 3], doubled: i64) -> i64 {
    let sum: i64 = (0..3).map(|corner| numbers[corner] * weights[corner]).sum();
    (2 * sum + doubled).div_euclid(2 * doubled)
}

/// The larger of the two distances: the last step of a segment.
pub fn last_step(from: Vertex, to: Vertex) -> i64 {
    (to.x - from.x).abs().max((to.y - from.y).abs())
}

/// The step at which a segment lights a pixel, if it does. Each step lights
/// another pixel, as the leading coordinate moves at every step.
pub fn step_at(from: Vertex, to: Vertex, x: i64, y: i64) -> Option<i64> {
    let (dx, dy) = (to.x - from.x, to.y - from.y);
    let n = dx.abs().max(dy.abs());
    let m = dx.abs().min(dy.abs());
    let x_leads = dx.abs() >= dy.abs();
    let k = if x_leads { (x - from.x).abs() } else { (y - from.y).abs() };
    if k > n {
        return None;
    }
    let aside = if n == 0 { 0 } else { (2 * k * m + n) / (2 * n) };
    let lit = if x_leads {
        (from.x + dx.signum() * k, from.y + dy.signum() * aside)
    } else {
        (from.x + dx.signum() * aside, from.y + dy.signum() * k)
    };
    if lit == (x, y) { Some(k) } else { None }
}

/// Mode 2: I and Z go from the first point's to the second's.
fn deep_segment_at(from: Vertex, to: Vertex, x: i64, y: i64) -> Option<Numbers> {
    let k = step_at(from, to, x, y)?;
    let n = last_step(from, to);
    let i = between(from.i, to.i, k, n);
    let z = between(from.z, to.z, k, n);
    Some(Numbers { i, z: Some(z) })
}

/// (2((n−k)·first + k·second) + n) div 2n; with n = 0 the new endpoint's.
pub fn between(first: i64, second: i64, k: i64, n: i64) -> i64 {
    if n == 0 {
        second
    } else {
        (2 * ((n - k) * first + k * second) + n) / (2 * n)
    }
}

/// The steps of all segments that a line has made, whatever their modes and
/// visible or not (document 02, [2]).
pub fn since_lx(made: &[Made]) -> i64 {
    made.iter().map(|segment| segment.steps).sum()
}

/// Whether the last segment that a line has made was visible and of mode 0
/// or 1: then one of mode 0 or 1 after it leaves out its first point
/// (document 02, [2]), also if it was of no length (docs/READINGS.md, [2]).
pub fn follows_dashes(made: &[Made]) -> bool {
    matches!(made.last(), Some(Made { mode: 0 | 1, visible: true, .. }))
}

/// Modes 0 and 1, so many steps after LX: foreground where the pattern bit
/// is set; where it is clear, background in mode 0 and nothing in mode 1.
fn dash_at(steps: i64, mode: i64, registers: &Registers) -> Option<Numbers> {
    let set = bit(registers.line_pattern, 31 - steps % 32);
    match (set, mode) {
        (true, _) => Some(Numbers { i: registers.foreground, z: None }),
        (false, 0) => Some(Numbers { i: registers.background, z: None }),
        (false, _) => None,
    }
}
