//! What each word does: the refusals, then the effect on the registers.

use crate::figures::{last_step, Figure};
use crate::picture::Pixel;
use crate::regions::Region;
use crate::registers::{bit, Awaiting, InitData, Line, Made, Open, Registers, Vertex, Window};
use crate::stream::Word;

pub const PTRN: i64 = 0x0;
pub const I: i64 = 0x1;
pub const Z: i64 = 0x2;
pub const Y: i64 = 0x3;
pub const X: i64 = 0x4;
pub const T1X: i64 = 0x5;
pub const T2X: i64 = 0x6;
pub const LX: i64 = 0x8;
pub const IMG: i64 = 0x9;
pub const PX: i64 = 0xB;
pub const PARM: i64 = 0xD;
pub const AUX: i64 = 0xE;
pub const INIT: i64 = 0xF;

pub const PMODE: i64 = 0;
pub const LMODE: i64 = 1;
pub const IMODE: i64 = 2;
pub const ZCONTROL: i64 = 3;
pub const HCONTROL: i64 = 4;
pub const TPATTERN: i64 = 5;
pub const WINDOW: i64 = 6;
pub const SECTION: i64 = 7;
pub const COLOR: i64 = 8;
pub const LPATTERN: i64 = 9;
pub const MASK: i64 = 10;
pub const LSTATUS: i64 = 12;
/// IMG's corners are awaited as a subcommand's parameters are; no AUX has
/// such numbers.
pub const CORNERS_TO_MEMORY: i64 = -1;
pub const CORNERS_FROM_MEMORY: i64 = -2;

/// The bits that HCONTROL, ZCONTROL and LSTATUS allow.
pub const HARDWARE_BITS: i64 = 0x0D8E;
pub const DEPTH_BITS: i64 = 0x0060;
pub const STATUS_BITS: i64 = 0x0030;
/// LSTATUS with INV 1, END 0.
pub const INVISIBLE: i64 = 0x0020;
/// Those that IMG allows: bit 0 is the direction, bit 2 isn't used.
pub const IMAGE_BITS: i64 = 0x0005;

/// ZCONTROL: bit 6 is the depth test, bit 5 cuts constant triangles.
pub const DEPTH_TEST: i64 = 0x0040;
pub const SECTIONING: i64 = 0x0020;

/// The largest coordinate, of a vertex and of an image, and the largest
/// window border (document 02, [12]).
pub const LARGEST_COORDINATE: i64 = 16383;
pub const LARGEST_BORDER: i64 = 16384;

/// An accepted word: the next registers, the figure that the word
/// completed, if there is one that offers pixels, and the pixel that it
/// transfers to memory.
pub struct Accepted {
    pub registers: Registers,
    pub figure: Option<Figure>,
    pub pixel: Option<Pixel>,
}

/// The answer to one word, or the number it is refused with.
pub fn step(registers: &Registers, word: Word) -> Result<Accepted, i64> {
    match refusal(registers, word) {
        0 => Ok(accept(registers.clone(), word)),
        number => Err(number),
    }
}

/// The lowest number that applies to a word, or 0. Numbers 1 and 2 cannot
/// apply here: a word of a stream has 4 command bits, the two memories have
/// the same length and the registers come from reset.
pub fn refusal(registers: &Registers, word: Word) -> i64 {
    (3..=14).find(|number| applies(*number, registers, word)).unwrap_or(0)
}

/// Whether the row of the table with this number applies to a word,
/// whatever the other rows say.
pub fn applies(number: i64, registers: &Registers, word: Word) -> bool {
    let Word { command, data } = word;
    let awaited = registers.awaiting.is_some();
    match number {
        3 => command != INIT && !registers.initialised,
        4 => [0x7, 0xC].contains(&command),
        5 => command == 0xA || command == AUX && data == 11,
        6 => awaited && ![PARM, INIT].contains(&command),
        7 => command == PARM && !awaited,
        // The AUX number is all 16 bits (docs/READINGS.md, "Refusals").
        8 => command == AUX && data > 12,
        9 => !value_allowed(registers, word),
        10 => !fits_figure(registers, command),
        14 => command == PTRN && transfer_refusal(registers, false) == 14,
        _ => false,
    }
}

/// 14 for a transfer, to memory or from it, with no region open, with one
/// that is used up, or against its direction.
pub fn transfer_refusal(registers: &Registers, from_memory: bool) -> i64 {
    match registers.region {
        Some(region) if region.from_memory == from_memory && !region.is_used_up() => 0,
        _ => 14,
    }
}

/// Row 9: whether the word's value is allowed.
fn value_allowed(registers: &Registers, word: Word) -> bool {
    match word.command {
        INIT => InitData::of(word.data).is_allowed(0),
        Y | X | T1X | T2X | LX | PX => word.data <= LARGEST_COORDINATE,
        IMG => only_bits_of(word.data, IMAGE_BITS),
        PARM => match &registers.awaiting {
            Some(awaiting) => parameter_allowed(awaiting, word.data),
            None => true,
        },
        _ => true,
    }
}

/// Whether a parameter is allowed at the position where it comes. It is
/// judged when it comes, WINDOW's fifth too (docs/READINGS.md, "Refusals").
fn parameter_allowed(awaiting: &Awaiting, data: i64) -> bool {
    match (awaiting.subcommand, awaiting.parked.len()) {
        (PMODE, _) => data <= 1,
        (LMODE, _) => data <= 2,
        (IMODE, _) => data == 0,
        (CORNERS_TO_MEMORY | CORNERS_FROM_MEMORY, _) => data <= LARGEST_COORDINATE,
        (ZCONTROL, _) => only_bits_of(data, DEPTH_BITS),
        (HCONTROL, _) => only_bits_of(data, HARDWARE_BITS),
        (WINDOW, 0..=3) => data <= LARGEST_BORDER,
        (WINDOW, _) => data == 0,
        (LSTATUS, _) => only_bits_of(data, STATUS_BITS),
        _ => true,
    }
}

fn only_bits_of(data: i64, allowed: i64) -> bool {
    (0..16).all(|place| !bit(data, place) || bit(allowed, place))
}

/// Row 10: X or PX must fit the open figure; other words always do. What
/// counts is the line mode of this moment (docs/READINGS.md, "Refusals").
fn fits_figure(registers: &Registers, command: i64) -> bool {
    match (command, &registers.open) {
        (X, Open::Strip(_)) | (X, Open::Fan(_)) => true,
        (X, Open::Line(_)) => registers.line_mode == 2,
        (PX, Open::Line(_)) => registers.line_mode == 0 || registers.line_mode == 1,
        (X, _) | (PX, _) => false,
        _ => true,
    }
}

/// How many parameters a subcommand takes.
pub fn parameter_count(subcommand: i64) -> usize {
    match subcommand {
        WINDOW => 5,
        CORNERS_TO_MEMORY | CORNERS_FROM_MEMORY => 4,
        COLOR | LPATTERN => 2,
        _ => 1,
    }
}

/// The effect of a word that is not refused.
pub fn accept(mut registers: Registers, word: Word) -> Accepted {
    let data = word.data;
    let mut figure = None;
    let mut pixel = None;
    match word.command {
        INIT => {
            let asked = InitData::of(data);
            let length = asked.line_length().expect("judged before");
            registers = Registers::initial(length, registers.layout.after_init(asked));
        }
        AUX => registers.awaiting = Some(Awaiting { subcommand: data, parked: Vec::new() }),
        IMG => {
            let corners = if bit(data, 0) { CORNERS_FROM_MEMORY } else { CORNERS_TO_MEMORY };
            registers.awaiting = Some(Awaiting { subcommand: corners, parked: Vec::new() });
        }
        PTRN => pixel = take_pixel(&mut registers, data),
        PARM => take_parameter(&mut registers, data),
        I => registers.i = data,
        Z => registers.z = data,
        Y => registers.y = data,
        T1X => registers.open = Open::Strip(vec![registers.vertex(data)]),
        T2X => registers.open = Open::Fan(vec![registers.vertex(data)]),
        LX => open_line(&mut registers, data),
        X | PX => figure = take_vertex(&mut registers, data),
        _ => unreachable!("every other command is refused"),
    }
    Accepted { registers, figure, pixel }
}

/// PTRN: the pixel that is stored, and the region moves on.
fn take_pixel(registers: &mut Registers, value: i64) -> Option<Pixel> {
    let region = registers.region?;
    registers.region = Some(region.moved_on());
    let (x, y) = region.pixel();
    Some(Pixel { x, y, value })
}

/// LX opens a line and sets INV 0 (document 02, [5]), END 0.
fn open_line(registers: &mut Registers, x: i64) {
    registers.open = Open::Line(Line { end: registers.vertex(x), made: Vec::new() });
    registers.invisible = false;
    registers.end = false;
}

/// Parks a parameter; with the last one all take effect together.
fn take_parameter(registers: &mut Registers, data: i64) {
    let mut awaiting = registers.awaiting.take().expect("judged before");
    awaiting.parked.push(data);
    if awaiting.parked.len() == parameter_count(awaiting.subcommand) {
        take_effect(registers, awaiting.subcommand, &awaiting.parked);
    } else {
        registers.awaiting = Some(awaiting);
    }
}

fn take_effect(registers: &mut Registers, subcommand: i64, given: &[i64]) {
    match subcommand {
        PMODE => registers.shading = given[0],
        LMODE => registers.line_mode = given[0],
        ZCONTROL => {
            registers.depth_test = bit(given[0], 6);
            registers.sectioning = bit(given[0], 5);
        }
        HCONTROL => registers.hardware = given[0],
        TPATTERN => registers.transparency = given[0],
        WINDOW => {
            registers.window = Window { left: given[0], top: given[1], right: given[2], bottom: given[3] };
        }
        SECTION => registers.section = given[0],
        COLOR => {
            registers.foreground = given[0];
            registers.background = given[1];
        }
        LPATTERN => registers.line_pattern = given[0] * 65536 + given[1],
        MASK => registers.planes = given[0],
        LSTATUS => {
            registers.invisible = bit(given[0], 5);
            registers.end = bit(given[0], 4);
        }
        // IMODE takes 0 only, and does nothing.
        IMODE => {}
        CORNERS_TO_MEMORY => registers.region = Some(Region::of_corners(false, given)),
        CORNERS_FROM_MEMORY => registers.region = Some(Region::of_corners(true, given)),
        _ => unreachable!("every other subcommand is refused"),
    }
}

/// X or PX that fits: the new vertex joins the open figure, and may
/// complete a triangle or a segment.
fn take_vertex(registers: &mut Registers, x: i64) -> Option<Figure> {
    let vertex = registers.vertex(x);
    let shading = registers.shading;
    match &mut registers.open {
        Open::Nothing => unreachable!("judged before"),
        Open::Strip(vertices) => {
            vertices.push(vertex);
            strip_corners(vertices).map(|corners| Figure::Triangle { corners, shading })
        }
        Open::Fan(vertices) => {
            vertices.push(vertex);
            fan_corners(vertices).map(|corners| Figure::Triangle { corners, shading })
        }
        Open::Line(line) => {
            let (from, mode, visible) = (line.end, registers.line_mode, !registers.invisible);
            let segment = Figure::Segment { from, to: vertex, mode, before: line.made.clone() };
            // An invisible segment moves on and closes on END all the same;
            // INV and END stay as they are (docs/READINGS.md, "Figures" and
            // "Registers").
            line.made.push(Made { steps: last_step(from, vertex), mode, visible });
            line.end = vertex;
            if registers.end {
                registers.open = Open::Nothing;
            }
            if visible { Some(segment) } else { None }
        }
    }
}

/// The last three vertices, the completing one last.
fn strip_corners(vertices: &[Vertex]) -> Option<[Vertex; 3]> {
    match vertices {
        [.., a, b, c] => Some([*a, *b, *c]),
        _ => None,
    }
}

/// The first vertex, the one before and the completing one.
fn fan_corners(vertices: &[Vertex]) -> Option<[Vertex; 3]> {
    match vertices {
        [first, .., before, new] => Some([*first, *before, *new]),
        _ => None,
    }
}
