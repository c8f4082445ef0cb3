//! Random pictures: regions of all kinds and the pixels that go to them, as
//! pieces of a drawing and as streams of their own; and the words that are
//! refused for want of a region.

use crate::commands::*;
use crate::program::Program;

/// The most pixels of one piece.
const MOST_PIXELS: i64 = 90;

/// A drawing of pictures and figures; now and then its last word is a
/// transfer that is refused.
pub fn pictures(mut program: Program) -> Vec<u8> {
    program.opening();
    let words = program.random.from_to(100, 900) as usize;
    while program.words.len() < words {
        if program.random.once_in(4) {
            program.piece();
        } else {
            picture(&mut program);
        }
    }
    if program.random.once_in(3) {
        transfer_without_region(&mut program);
    }
    program.bytes()
}

/// A region to memory and pixels for it, all of them or fewer, over whatever
/// figure is open; that goes on between them now and then.
pub fn picture(program: &mut Program) {
    picture_settings(program);
    open_region(program, 0);
    let left = program.pixels_left();
    let pixels = if program.random.once_in(3) { program.random.below(left + 1) } else { left };
    for _ in 0..pixels.min(MOST_PIXELS) {
        if program.random.once_in(25) {
            between_pixels(program);
        }
        let value = program.intensity();
        program.push(PTRN, value);
    }
    if program.random.once_in(4) {
        program.add_point();
    }
}

/// HCONTROL with bit 3 every other time, planes, and IMODE.
pub fn picture_settings(program: &mut Program) {
    if program.random.once_in(2) {
        let hardware = program.random.pick(&[0x6, 0x6, 0x4, 0xE, 0xE, 0xA, 0xC, 0x2, 0x8, 0x0]);
        program.subcommand(HCONTROL, &[hardware]);
    }
    if program.random.once_in(8) {
        program.subcommand(IMODE, &[0]);
    }
    if program.random.once_in(5) {
        program.setting();
    }
}

/// What may come between two pixels: settings, and points of the open
/// figure.
fn between_pixels(program: &mut Program) {
    match program.random.below(3) {
        0 => picture_settings(program),
        1 => program.setting(),
        _ => program.add_point(),
    }
}

/// IMG, with bit 2 now and then, and two corners, of which any may be the
/// lower or the left one. Mostly the region is small.
pub fn open_region(program: &mut Program, direction: i64) {
    program.choose_region();
    let unused = program.random.below(2) * 4;
    let first = (program.x(), program.y());
    let second = match program.random.below(4) {
        0 => (program.x(), program.y()),
        _ => (near(program, first.0, 9), near(program, first.1, 5)),
    };
    program.push(IMG, direction + unused);
    for corner in [first.0, first.1, second.0, second.1] {
        program.push(PARM, corner);
    }
}

/// A coordinate that is no further than `span` from another.
fn near(program: &mut Program, coordinate: i64, span: i64) -> i64 {
    let step = program.random.from_to(-span, span);
    (coordinate + step).clamp(0, LARGEST_COORDINATE)
}

/// PTRN with no region open, with one that is used up, or against its
/// direction.
pub fn transfer_without_region(program: &mut Program) {
    match program.random.below(4) {
        0 => program.opening(),
        1 => open_region(program, 1),
        2 => {
            open_region(program, 0);
            program.opening();
        }
        _ => {
            open_region(program, 0);
            let left = program.pixels_left();
            if left > MOST_PIXELS {
                open_region(program, 1);
            }
            for _ in 0..left.min(MOST_PIXELS) {
                program.push(PTRN, 9);
            }
        }
    }
    program.push(PTRN, 5);
}

/// An IMG bit, a corner or an IMODE that is not allowed.
pub fn bad_picture(program: &mut Program) {
    match program.random.below(3) {
        0 => {
            let good = program.random.pick(&[0, 1, 4, 5]);
            let bad = program.random.pick(&[2, 8, 16, 256, 0x4000, 0x8000]);
            program.push(IMG, good + bad);
        }
        1 => {
            let direction = program.random.below(2);
            program.push(IMG, direction);
            for _ in 0..program.random.below(4) {
                program.push(PARM, LARGEST_COORDINATE);
            }
            let bad = program.random.pick(&[LARGEST_COORDINATE + 1, LARGEST_COORDINATE + 2, 65535]);
            program.push(PARM, bad);
        }
        _ => {
            let bad = program.random.pick(&[1, 2, 65535]);
            program.subcommand(IMODE, &[bad]);
        }
    }
}
