//! A recording worth looking at: a specimen's surface, as an operator sees
//! it. The heights are a field over a grid, seen from above and from one
//! side; all numbers are integers, so that the recording is the same on
//! every machine.

use crate::commands::*;
use crate::stream::{pack_words, Word};

/// The grid: its cells across and from front to back.
const COLUMNS: i64 = 80;
const ROWS: i64 = 60;
/// A pixel's width in the unit of all lengths here, and a cell's.
const PIXEL: i64 = 64;
const CELL: i64 = 400;
/// Shares are counted in this.
const ONE: i64 = 4096;
/// The picture: INIT with line code 6 has lines of 640.
const LINE_CODE: i64 = 6;
const WIDTH: i64 = 640;
const HEIGHT: i64 = 448;
/// Where the middle of the specimen's ground stands in the picture.
const MIDDLE: (i64, i64) = (320 * PIXEL, 208 * PIXEL);
/// How deep the specimen goes below height 0, and how high its cage is.
const FOOT: i64 = -44 * PIXEL;
const CAGE: i64 = 80 * PIXEL;
/// Towards the light, and midway between the light and the observer.
const LIGHT: [i64; 3] = [-5, -2, 5];
const GLOSS: [i64; 3] = [-37, -101, 128];
/// Depths of a pixel's width, and of the backdrop.
const DEPTH: i64 = 90;
const BACKDROP: i64 = 65534;
/// How much nearer than the surface a line on it is: half a pixel aside from
/// an edge the surface may be that much nearer than the edge.
const LIFT: i64 = 160;

/// The packed recording.
pub fn recording() -> Vec<u8> {
    let mut sent = Sent { words: vec![Word::new(INIT, LINE_CODE * 256)], i: 0, z: 0, y: 0 };
    sent.setting(HCONTROL, &[6]);
    backdrop(&mut sent);
    cage(&mut sent);
    let mesh = Mesh::new();
    sent.setting(ZCONTROL, &[DEPTH_TEST]);
    surface(&mut sent, &mesh);
    walls(&mut sent, &mesh);
    sent.setting(LMODE, &[2]);
    contours(&mut sent, &mesh);
    outline(&mut sent, &mesh);
    scale(&mut sent);
    pack_words(&sent.words)
}

/// The words sent so far, and what stands in the registers I, Z and Y: a word
/// that would leave these as they are isn't sent.
struct Sent {
    words: Vec<Word>,
    i: i64,
    z: i64,
    y: i64,
}

impl Sent {
    fn word(&mut self, command: i64, data: i64) {
        self.words.push(Word::new(command, data));
    }

    fn setting(&mut self, number: i64, parameters: &[i64]) {
        self.word(AUX, number);
        for parameter in parameters {
            self.word(PARM, *parameter);
        }
    }

    fn vertex(&mut self, command: i64, vertex: Vertex) {
        if vertex.i != self.i {
            self.word(I, vertex.i);
        }
        if vertex.z != self.z {
            self.word(Z, vertex.z);
        }
        self.point(command, vertex.x, vertex.y);
        (self.i, self.z) = (vertex.i, vertex.z);
    }

    /// A vertex whose intensity and depth play no part.
    fn point(&mut self, command: i64, x: i64, y: i64) {
        if y != self.y {
            self.word(Y, y);
        }
        self.word(command, x);
        self.y = y;
    }

    /// A strip, or a line of mode 2, through these vertices.
    fn through(&mut self, opening: i64, vertices: impl IntoIterator<Item = Vertex>) {
        let mut command = opening;
        for vertex in vertices {
            self.vertex(command, vertex);
            command = X;
        }
    }

    /// A line of mode 0 or 1 through these points.
    fn dashes(&mut self, points: &[(i64, i64)]) {
        let mut command = LX;
        for (x, y) in points {
            self.point(command, *x, *y);
            command = PX;
        }
    }
}

/// A point of the picture with its numbers.
#[derive(Clone, Copy)]
struct Vertex {
    x: i64,
    y: i64,
    z: i64,
    i: i64,
}

/// A point of the specimen in the picture: turned by the angle whose cosine
/// is 12/13, and seen from above at the angle whose cosine is 4/5.
fn seen(u: i64, v: i64, height: i64, i: i64) -> Vertex {
    let (u, v) = (u - COLUMNS * CELL / 2, v - ROWS * CELL / 2);
    let (across, away) = ((12 * u + 5 * v) / 13, (12 * v - 5 * u) / 13);
    let x = (MIDDLE.0 + across + PIXEL / 2).div_euclid(PIXEL);
    let y = (MIDDLE.1 + (3 * away + 4 * height) / 5 + PIXEL / 2).div_euclid(PIXEL);
    let z = 32768 + (4 * away - 3 * height) * DEPTH / (5 * PIXEL);
    Vertex { x, y, z, i }
}

// The specimen's heights.

fn height(u: i64, v: i64) -> i64 {
    let swell = 5 * PIXEL * wave(3 * u + v, 60 * CELL) / ONE + 3 * PIXEL * wave(2 * v - u, 34 * CELL) / ONE;
    let ripples = PIXEL * wave(u + 3 * v, 26 * CELL) / ONE;
    let hills = hill(u, v, (25, 44), 19, 62) + hill(u, v, (9, 30), 11, 26) + hill(u, v, (71, 51), 14, 40) + hill(u, v, (45, 52), 12, 22);
    let ground = swell + ripples + hills + crater(u, v) + scratch(u, v);
    ground.max(crystal(u, v, (65, 21), 9, 44)).max(crystal(u, v, (73, 13), 5, 20))
}

/// A sine drawn with parabolas, from -ONE to ONE.
fn wave(along: i64, length: i64) -> i64 {
    let half = length / 2;
    let (turn, rest) = (along.div_euclid(half), along.rem_euclid(half));
    let arc = 4 * ONE * rest / half * (half - rest) / half;
    if turn % 2 == 0 { arc } else { -arc }
}

/// The squared distance from a point of the grid, as a share of a squared
/// radius.
fn share(u: i64, v: i64, (column, row): (i64, i64), radius: i64) -> i64 {
    let (du, dv) = (u - column * CELL, v - row * CELL);
    ONE * (du * du + dv * dv) / (radius * radius * CELL * CELL)
}

fn hill(u: i64, v: i64, middle: (i64, i64), radius: i64, pixels: i64) -> i64 {
    let inside = (ONE - share(u, v, middle, radius)).max(0);
    pixels * PIXEL * inside / ONE * inside / ONE
}

/// A bowl inside a round wall.
fn crater(u: i64, v: i64) -> i64 {
    let out = share(u, v, (34, 19), 11);
    let bowl = (ONE - out).max(0);
    let wall = (ONE - (out - ONE) * (out - ONE) / (ONE * 4 / 5)).max(0);
    hill(u, v, (34, 19), 5, 16) + (22 * PIXEL * wall / ONE * wall - 34 * PIXEL * bowl / ONE * bowl) / ONE
}

/// Four steep faces along the grid, and a level one on top.
fn crystal(u: i64, v: i64, (column, row): (i64, i64), radius: i64, pixels: i64) -> i64 {
    let out = (u - column * CELL).abs().max((v - row * CELL).abs());
    let side = 8 * PIXEL * (radius * CELL - out) / CELL - 4 * PIXEL;
    side.min(pixels * PIXEL)
}

/// A groove between two small walls, shallow at both ends.
fn scratch(u: i64, v: i64) -> i64 {
    let (du, dv) = (u - 55 * CELL, v - 38 * CELL);
    let (along, aside) = ((4 * du - 3 * dv) / 5, (3 * du + 4 * dv) / 5);
    let inside = (3 * ONE - 3 * ONE * along.abs() / (18 * CELL)).clamp(0, ONE);
    let out = ONE * aside.abs() / (3 * CELL);
    let groove = (ONE - out * out / ONE * 2).max(0);
    let walls = (ONE - (out - ONE) * (out - ONE) / (ONE / 3)).max(0);
    (4 * PIXEL * walls - 11 * PIXEL * groove) / ONE * inside / ONE
}

// Its light.

/// How much of the light meets a point's slope, how much of it gets there
/// and how much goes on to the observer.
fn intensity(u: i64, v: i64) -> i64 {
    let near = CELL / 2;
    let slope = [height(u - near, v) - height(u + near, v), height(u, v - near) - height(u, v + near), 2 * near];
    let (lit, gloss) = (cosine(slope, LIGHT), cosine(slope, GLOSS));
    let open = unshaded(u, v);
    let sharp = (0..5).fold(gloss, |power, _| power * power / ONE);
    26 + (170 * lit / ONE * (ONE / 4 + open * 3 / 4) + 60 * sharp / ONE * open) / ONE
}

/// The cosine of the angle between two directions, and 0 where it is
/// negative.
fn cosine(a: [i64; 3], b: [i64; 3]) -> i64 {
    let product = |a: [i64; 3], b: [i64; 3]| a[0] * b[0] + a[1] * b[1] + a[2] * b[2];
    let lengths = root(product(a, a) * product(b, b));
    (ONE * product(a, b) / lengths).max(0)
}

/// The square root, rounded down.
fn root(number: i64) -> i64 {
    let (mut low, mut high) = (0, 1 << 31);
    while high - low > 1 {
        let middle = (low + high) / 2;
        if middle * middle <= number { low = middle } else { high = middle }
    }
    low
}

/// How much of the light gets to a point past what stands between: all of it
/// where the way is free by a good part of its length.
fn unshaded(u: i64, v: i64) -> i64 {
    let start = height(u, v);
    (1..60)
        .map(|step| {
            let way = LIGHT.map(|part| part * step * CELL / 4);
            let (u, v) = (u + way[0], v + way[1]);
            let free = start + way[2] - height(u, v);
            let inside = (0..=COLUMNS * CELL).contains(&u) && (0..=ROWS * CELL).contains(&v);
            if inside { (ONE / 2 + ONE * 5 / 2 * free / way[2]).clamp(0, ONE) } else { ONE }
        })
        .min()
        .unwrap_or(ONE)
}

/// The surface over the grid's points: what is seen of them, and their
/// heights.
struct Mesh {
    seen: Vec<Vec<Vertex>>,
    heights: Vec<Vec<i64>>,
}

impl Mesh {
    fn new() -> Mesh {
        let row = |v: i64| (0..=COLUMNS).map(move |u| seen(u * CELL, v * CELL, height(u * CELL, v * CELL), intensity(u * CELL, v * CELL)));
        let heights = |v: i64| (0..=COLUMNS).map(move |u| height(u * CELL, v * CELL));
        Mesh { seen: (0..=ROWS).map(|v| row(v).collect()).collect(), heights: (0..=ROWS).map(|v| heights(v).collect()).collect() }
    }
}

// What is drawn.

/// Two triangles behind everything, dark below and lighter above.
fn backdrop(sent: &mut Sent) {
    let corner = |x, y, i| Vertex { x, y, z: BACKDROP, i };
    sent.through(T1X, [corner(0, 0, 0), corner(WIDTH, 0, 8), corner(0, HEIGHT, 34), corner(WIDTH, HEIGHT, 46)]);
}

/// A dashed cage around the specimen's far side. It has no depth: what is
/// drawn later hides it.
fn cage(sent: &mut Sent) {
    let (right, back) = (COLUMNS * CELL, ROWS * CELL);
    let at = |u, v, height| {
        let vertex = seen(u, v, height, 0);
        (vertex.x, vertex.y)
    };
    sent.setting(LMODE, &[1]);
    sent.setting(COLOR, &[120, 0]);
    sent.setting(LPATTERN, &[0xF0F0, 0xF0F0]);
    for height in [0, CAGE / 2, CAGE] {
        sent.dashes(&[at(0, 0, height), at(0, back, height), at(right, back, height)]);
    }
    for (u, v) in [(0, 0), (0, back), (right, back)] {
        sent.dashes(&[at(u, v, FOOT), at(u, v, CAGE)]);
    }
}

/// A strip for each row of cells, the nearest first, so that the depth test
/// has much to hide.
fn surface(sent: &mut Sent, mesh: &Mesh) {
    for rows in mesh.seen.windows(2) {
        sent.through(T1X, rows[0].iter().zip(&rows[1]).flat_map(|(near, far)| [*near, *far]));
    }
}

/// The two cut sides that the observer sees, darker towards the foot.
fn walls(sent: &mut Sent, mesh: &Mesh) {
    let (columns, rows) = (COLUMNS as usize, ROWS as usize);
    let wall = |u: usize, v: usize, top: i64| {
        let foot = seen(u as i64 * CELL, v as i64 * CELL, FOOT, 12);
        [Vertex { i: top, ..mesh.seen[v][u] }, foot]
    };
    sent.through(T1X, (0..=columns).flat_map(|u| wall(u, 0, 84)));
    sent.through(T1X, (0..=rows).flat_map(|v| wall(columns, v, 52)));
}

/// The lines of equal height.
fn contours(sent: &mut Sent, mesh: &Mesh) {
    for level in -3..10 {
        for v in 0..ROWS as usize {
            for u in 0..COLUMNS as usize {
                for corners in [[(u, v), (u, v + 1), (u + 1, v)], [(u, v + 1), (u + 1, v), (u + 1, v + 1)]] {
                    contour(sent, mesh, corners, level * 10 * PIXEL + PIXEL / 2);
                }
            }
        }
    }
}

/// The line of a height on one triangle, if it has one.
fn contour(sent: &mut Sent, mesh: &Mesh, corners: [(usize, usize); 3], level: i64) {
    let [a, b, c] = corners;
    let ends: Vec<Vertex> = [(a, b), (b, c), (c, a)].iter().filter_map(|(a, b)| crossing(mesh, *a, *b, level)).collect();
    sent.through(LX, ends);
}

/// Where an edge has this height.
fn crossing(mesh: &Mesh, a: (usize, usize), b: (usize, usize), level: i64) -> Option<Vertex> {
    let (low, high) = (mesh.heights[a.1][a.0], mesh.heights[b.1][b.0]);
    let (from, to) = (mesh.seen[a.1][a.0], mesh.seen[b.1][b.0]);
    let between = |a: i64, b: i64| (2 * (a * (high - level) + b * (level - low)) / (high - low) + 1).div_euclid(2);
    let crosses = (low < level) != (high < level);
    crosses.then(|| Vertex { x: between(from.x, to.x), y: between(from.y, to.y), z: between(from.z, to.z) - LIFT, i: between(from.i, to.i) * 5 / 8 })
}

/// The specimen's edges in bright lines.
fn outline(sent: &mut Sent, mesh: &Mesh) {
    let bright = |vertex: &Vertex| Vertex { i: 235, z: vertex.z - LIFT, ..*vertex };
    let (columns, rows) = (COLUMNS as usize, ROWS as usize);
    sent.through(LX, mesh.seen[0].iter().map(bright));
    sent.through(LX, mesh.seen.iter().map(|row| bright(&row[columns])));
    sent.through(LX, mesh.seen[rows].iter().map(bright));
    sent.through(LX, mesh.seen.iter().map(|row| bright(&row[0])));
}

/// A bar of ten parts, light and dark by turns.
fn scale(sent: &mut Sent) {
    sent.setting(LMODE, &[0]);
    sent.setting(COLOR, &[255, 70]);
    sent.setting(LPATTERN, &[0xFFFF, 0]);
    for y in 16..20 {
        sent.dashes(&[(20, y), (20 + 159, y)]);
    }
}

#[cfg(test)]
mod tests {
    use super::*;
    use crate::figures::Figure;
    use crate::picture::Picture;
    use crate::run::watched;

    /// Every word is accepted, no figure leaves the picture, every place of
    /// it is drawn at, and the intensities go from 0 to 255.
    #[test]
    fn the_whole_surface_is_drawn() {
        let mut picture = Picture::cleared((WIDTH * HEIGHT) as usize);
        let (mut triangles, mut segments, mut outside) = (0, 0, 0);
        let outcome = watched(&recording(), &mut picture, |figure, _, _| {
            match figure {
                Figure::Triangle { .. } => triangles += 1,
                Figure::Segment { .. } => segments += 1,
            }
            outside += figure.points().iter().filter(|point| point.x > WIDTH || point.y > HEIGHT).count();
        });
        assert_eq!((outcome.refusal, outcome.line_length, outside), (0, WIDTH, 0));
        assert_eq!(triangles, 2 + 2 * COLUMNS * ROWS + 2 * (COLUMNS + ROWS));
        assert!(segments > 1000);
        assert!(picture.z.iter().all(|depth| *depth <= BACKDROP));
        assert_eq!((picture.i.iter().min(), picture.i.iter().max()), (Some(&0), Some(&255)));
    }

    #[test]
    fn roots_are_rounded_down() {
        for (number, expected) in [(0, 0), (1, 1), (3, 1), (4, 2), (99, 9), (100, 10), (1 << 60, 1 << 30)] {
            assert_eq!(root(number), expected);
        }
    }
}
