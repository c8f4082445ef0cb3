//! The registers, and what reset and INIT make of them.

use crate::commands::LARGEST_BORDER;
use crate::regions::Region;

/// A vertex: the X data with the I, Z and Y registers of its moment. A PX
/// vertex freezes them too (docs/READINGS.md, "Registers").
#[derive(Clone, Copy, Debug, PartialEq, Eq)]
pub struct Vertex {
    pub x: i64,
    pub y: i64,
    pub i: i64,
    pub z: i64,
}

/// The clipping window; pixels on its borders are inside.
#[derive(Clone, Copy, Debug, PartialEq, Eq)]
pub struct Window {
    pub left: i64,
    pub top: i64,
    pub right: i64,
    pub bottom: i64,
}

/// A segment that a line has made, of so many steps.
#[derive(Clone, Copy, Debug, PartialEq, Eq)]
pub struct Made {
    pub steps: i64,
    pub mode: i64,
    pub visible: bool,
}

/// An open line: where it stands, and all segments it has made since LX.
#[derive(Clone, Debug, PartialEq, Eq)]
pub struct Line {
    pub end: Vertex,
    pub made: Vec<Made>,
}

/// The figure that is open, with the vertices that came so far.
#[derive(Clone, Debug, PartialEq, Eq)]
pub enum Open {
    Nothing,
    Strip(Vec<Vertex>),
    Fan(Vec<Vertex>),
    Line(Line),
}

/// A subcommand that awaits parameters, with those that came so far.
#[derive(Clone, Debug, PartialEq, Eq)]
pub struct Awaiting {
    pub subcommand: i64,
    pub parked: Vec<i64>,
}

/// How pixels lie in both memories: rows one after the other, tiles of four
/// by four (document 02, [9]), or those columns that a unit of a board has
/// (document 02, [8]).
#[derive(Clone, Copy, Debug, PartialEq, Eq)]
pub enum Layout {
    Rows,
    Tiles,
    Columns { unit: i64, of: i64 },
}

impl Layout {
    /// INIT tells a unit of a board its number; where it names one chip, the
    /// layout stays.
    pub fn after_init(self, asked: InitData) -> Layout {
        match asked.chips {
            0 => self,
            chips => Layout::Columns { unit: asked.unit, of: 2_i64.pow(chips as u32) },
        }
    }
}

pub const GOURAUD: i64 = 0;
pub const CONSTANT: i64 = 1;

#[derive(Clone, Debug, PartialEq, Eq)]
pub struct Registers {
    /// An INIT was accepted since reset.
    pub initialised: bool,
    pub line_length: i64,
    /// Chosen at reset; it stays through INIT, save on a board.
    pub layout: Layout,
    /// 0 Gouraud, 1 constant.
    pub shading: i64,
    pub line_mode: i64,
    pub depth_test: bool,
    /// Constant triangles deeper than the section depth are cut.
    pub sectioning: bool,
    pub section: i64,
    /// The hardware bits, as HCONTROL gave them.
    pub hardware: i64,
    pub transparency: i64,
    pub window: Window,
    pub foreground: i64,
    pub background: i64,
    /// The line pattern, 32 bits.
    pub line_pattern: i64,
    pub planes: i64,
    pub i: i64,
    pub z: i64,
    pub y: i64,
    /// INV of the line status.
    pub invisible: bool,
    /// END of the line status.
    pub end: bool,
    pub open: Open,
    pub awaiting: Option<Awaiting>,
    /// The region that IMG opened, also when it is used up.
    pub region: Option<Region>,
}

impl Registers {
    /// What INIT sets, for a line length and the layout that stays.
    pub fn initial(line_length: i64, layout: Layout) -> Registers {
        Registers {
            initialised: true,
            line_length,
            layout,
            shading: GOURAUD,
            line_mode: 1,
            depth_test: false,
            sectioning: false,
            section: 0xFFFF,
            hardware: 0,
            transparency: 0xFFFF,
            // 0 to the largest border both ways (document 02, [12]); y rises
            // upward, so top is the larger (docs/READINGS.md, "Registers").
            window: Window { left: 0, top: LARGEST_BORDER, right: LARGEST_BORDER, bottom: 0 },
            foreground: 1,
            background: 0,
            line_pattern: 0xFFFF_FFFF,
            planes: 0xFFFF,
            i: 0,
            z: 0,
            y: 0,
            invisible: true,
            end: false,
            open: Open::Nothing,
            awaiting: None,
            region: None,
        }
    }

    /// Reset: the same with line length 256, and no INIT accepted yet.
    pub fn reset() -> Registers {
        Registers::reset_to(Layout::Rows)
    }

    /// Reset, with the layout that it chooses.
    pub fn reset_to(layout: Layout) -> Registers {
        Registers { initialised: false, ..Registers::initial(256, layout) }
    }

    /// HCONTROL bit 2.
    pub fn i_enabled(&self) -> bool {
        bit(self.hardware, 2)
    }

    /// HCONTROL bit 1.
    pub fn z_enabled(&self) -> bool {
        bit(self.hardware, 1)
    }

    /// HCONTROL bit 3: pictures go to and from Z, and not I. It is read at
    /// each transfer.
    pub fn pictures_are_depths(&self) -> bool {
        bit(self.hardware, 3)
    }

    /// The vertex that an X, T1X, T2X, LX or PX with this data makes.
    pub fn vertex(&self, x: i64) -> Vertex {
        Vertex { x, y: self.y, i: self.i, z: self.z }
    }
}

/// Whether a bit of a number that is not negative is set.
pub fn bit(number: i64, place: i64) -> bool {
    number / 2_i64.pow(place as u32) % 2 == 1
}

/// The line lengths by code, in the order of document 01's table.
const LINE_LENGTHS: [(i64, i64); 36] = [
    (0, 256),
    (1, 320),
    (2, 384),
    (3, 448),
    (4, 512),
    (5, 576),
    (6, 640),
    (7, 704),
    (8, 1024),
    (9, 1088),
    (10, 1152),
    (11, 1216),
    (12, 2048),
    (13, 2112),
    (14, 2176),
    (15, 2240),
    (18, 768),
    (19, 832),
    (22, 1280),
    (23, 1344),
    (26, 2304),
    (27, 2368),
    (28, 4096),
    (29, 4160),
    (30, 4352),
    (31, 4416),
    (34, 1536),
    (35, 1600),
    (38, 2560),
    (39, 2624),
    (42, 4608),
    (43, 4672),
    (44, 8192),
    (45, 8256),
    (46, 8704),
    (47, 8768),
];

/// The line length of a code, if it is one of the 36.
pub fn line_length_of(code: i64) -> Option<i64> {
    LINE_LENGTHS.iter().find(|row| row.0 == code).map(|row| row.1)
}

/// What INIT data asks for.
#[derive(Clone, Copy, Debug, PartialEq, Eq)]
pub struct InitData {
    pub code: i64,
    pub chips: i64,
    pub unit: i64,
    pub page: i64,
}

impl InitData {
    /// Bits 13 to 8 line code, 7 and 6 chips, 5 and 4 unit, 3 to 0 page code;
    /// bits 15 and 14 have no effect.
    pub fn of(data: i64) -> InitData {
        InitData { code: data / 256 % 64, chips: data / 64 % 4, unit: data / 16 % 4, page: data % 16 }
    }

    /// Whether INIT with this data is allowed where so many chips, by their
    /// code, are.
    pub fn is_allowed(self, chips: i64) -> bool {
        self.chips == chips && self.unit == 0 && self.page <= 7 && self.line_length().is_some()
    }

    pub fn line_length(self) -> Option<i64> {
        line_length_of(self.code)
    }
}
