//! Random streams by seed, of several families.

use crate::commands::*;
use crate::transfers::{bad_picture, pictures, transfer_without_region};
use crate::program::{Program, MOST_WORDS};
use crate::random::Random;
use crate::registers::{line_length_of, Open};

/// The stream of a seed.
pub fn generate(seed: u64) -> Vec<u8> {
    let mut random = Random::new(seed);
    let family = random.below(100);
    let program = Program::new(random);
    match family {
        0..=25 => mixed(program),
        26..=33 => pictures(program),
        34..=60 => bad_word_late(program),
        61..=68 => limits(program),
        69..=78 => orders(program),
        79..=84 => rubbish(program),
        85..=94 => damaged(program),
        _ => sizes(program),
    }
}

/// How many words a drawing gets: mostly some hundreds.
fn drawing_length(random: &mut Random) -> usize {
    let words = match random.below(10) {
        0 => random.from_to(5, 100),
        1 => random.from_to(1500, 3276),
        _ => random.from_to(150, 1200),
    };
    words as usize
}

/// A drawing in which every word is taken.
fn mixed(mut program: Program) -> Vec<u8> {
    let words = drawing_length(&mut program.random);
    program.drawing(words);
    program.bytes()
}

// One bad word late.

/// A drawing, then one word that is refused, then more drawing.
fn bad_word_late(mut program: Program) -> Vec<u8> {
    let words = program.random.from_to(100, 900) as usize;
    program.drawing(words);
    bad_word(&mut program);
    let after = program.words.len() + program.random.below(60) as usize;
    program.draw_until(after);
    program.bytes()
}

/// A word that is refused, of any kind, behind those that it needs for it.
pub fn bad_word(program: &mut Program) {
    match program.random.below(8) {
        0 => reserved_command(program),
        1 => command_not_modelled(program),
        2 => word_for_a_parameter(program),
        3 => stray_parameter(program),
        4 => high_subcommand(program),
        5 => value_not_allowed(program),
        6 => transfer_without_region(program),
        _ => point_without_figure(program),
    }
}

/// Leaves a parameter awaited now and then.
fn perhaps_await(program: &mut Program) {
    if program.random.once_in(3) {
        await_parameter(program);
    }
}

/// A subcommand with not all of its parameters.
pub fn await_parameter(program: &mut Program) {
    if program.random.once_in(6) {
        let direction = program.random.below(2);
        program.push(IMG, direction);
        for _ in 0..program.random.below(4) {
            program.push(PARM, 7);
        }
        return;
    }
    let subcommand = program.random.pick(&[0, 1, 2, 3, 4, 5, 6, 6, 6, 7, 8, 8, 9, 9, 10, 12]);
    let given = program.random.below(parameter_count(subcommand) as i64);
    let parameters: Vec<i64> = (0..given).map(|_| program.random.below(LARGEST_BORDER + 1)).collect();
    program.subcommand(subcommand, &parameters);
}

fn reserved_command(program: &mut Program) {
    perhaps_await(program);
    let (command, data) = (program.random.pick(&[0x7, 0xC]), program.random.below(65536));
    program.push(command, data);
}

fn command_not_modelled(program: &mut Program) {
    perhaps_await(program);
    let any = program.random.below(65536);
    if program.random.once_in(2) {
        program.push(0xA, any);
    } else {
        program.push(AUX, 11);
    }
}

/// A parameter is awaited and another word comes, good or bad by itself.
fn word_for_a_parameter(program: &mut Program) {
    await_parameter(program);
    let command = program.random.pick(&[PTRN, I, Z, Y, X, T1X, T2X, LX, IMG, PX, AUX, AUX]);
    let data = if command == AUX {
        program.random.pick(&[0, 1, 2, 3, 4, 5, 6, 7, 8, 9, 10, 12, 13, 0x0102, 65535])
    } else {
        program.random.pick(&[0, 5, 200, LARGEST_COORDINATE, LARGEST_COORDINATE + 1, 20000, 65535])
    };
    program.push(command, data);
}

fn stray_parameter(program: &mut Program) {
    let any = program.random.below(65536);
    let data = program.random.pick(&[0, 1, LARGEST_BORDER, 65535, any]);
    program.push(PARM, data);
}

fn high_subcommand(program: &mut Program) {
    let any = program.random.from_to(13, 65535);
    let number = program.random.pick(&[13, 14, 15, 16, 0x0102, 0x0100, 0x8000, 65535, any]);
    program.push(AUX, number);
}

fn value_not_allowed(program: &mut Program) {
    match program.random.below(4) {
        0 => bad_coordinate(program),
        1 => bad_init(program),
        2 => bad_picture(program),
        _ => bad_parameter(program),
    }
}

fn bad_coordinate(program: &mut Program) {
    let any = program.random.from_to(LARGEST_COORDINATE + 1, 65535);
    let command = program.random.pick(&[Y, X, T1X, T2X, LX, PX]);
    let past = LARGEST_COORDINATE + 1;
    let data = program.random.pick(&[past, past, past, past + 1, 65535, any]);
    program.push(command, data);
}

/// INIT with a code that is not listed, or chips, unit or page code wrong;
/// now and then while a parameter is awaited.
fn bad_init(program: &mut Program) {
    perhaps_await(program);
    let unlisted: Vec<i64> = (0..64).filter(|code| line_length_of(*code).is_none()).collect();
    let data = match program.random.below(4) {
        0 => program.random.pick(&unlisted) * 256,
        1 => program.random.from_to(1, 3) * 64,
        2 => program.random.from_to(1, 3) * 16,
        _ => program.random.pick(&[8, 8, 9, 10, 12, 15]),
    };
    program.push(INIT, data);
}

fn bad_parameter(program: &mut Program) {
    match program.random.below(9) {
        0 => program.subcommand(PMODE, &[2]),
        1 => program.subcommand(LMODE, &[3]),
        2 => bad_bit(program, ZCONTROL, DEPTH_BITS),
        3 | 4 => bad_bit(program, HCONTROL, HARDWARE_BITS),
        5 => bad_bit(program, LSTATUS, STATUS_BITS),
        6 => program.subcommand(WINDOW, &[0, 31, 255, 0, 1]),
        _ => bad_border(program),
    }
}

/// Some allowed bits and one that is not.
fn bad_bit(program: &mut Program, subcommand: i64, allowed: i64) {
    let good = program.random.below(65536) & allowed;
    let bits: Vec<i64> = (0..16).map(|place| 1 << place).filter(|bit| allowed & bit == 0).collect();
    let bad = program.random.pick(&bits);
    program.subcommand(subcommand, &[good | bad]);
}

fn bad_border(program: &mut Program) {
    let position = program.random.below(4) as usize;
    let mut borders = vec![3, 20, 200, 2];
    borders[position] = program.random.pick(&[LARGEST_BORDER + 1, LARGEST_BORDER + 2, 65535]);
    borders.truncate(position + 1);
    program.subcommand(WINDOW, &borders);
}

/// X or PX that fits no open figure.
fn point_without_figure(program: &mut Program) {
    match program.random.below(5) {
        0 => {
            program.opening();
            let command = program.random.pick(&[X, PX]);
            program.push(command, 5);
        }
        1 => {
            let command = program.random.pick(&[T1X, T2X]);
            program.open(command);
            program.add_point();
            program.push(PX, 5);
        }
        2 => {
            program.open(LX);
            let mode = program.random.below(3);
            program.subcommand(LMODE, &[mode]);
            program.push(if mode == 2 { PX } else { X }, 5);
        }
        3 => {
            program.subcommand(LMODE, &[2]);
            program.open(LX);
            program.subcommand(LSTATUS, &[0]);
            program.add_point();
            program.subcommand(LMODE, &[0]);
            program.push(X, 5);
        }
        _ => {
            program.open(LX);
            let status = program.random.pick(&[0x10, 0x30]);
            program.subcommand(LSTATUS, &[status]);
            program.add_point();
            program.push(if program.registers.line_mode == 2 { X } else { PX }, 5);
        }
    }
}

// Limits.

/// Values at the limits; half of the streams end with one past them.
fn limits(mut program: Program) -> Vec<u8> {
    program.opening();
    let words = program.random.from_to(100, 700) as usize;
    let mut figures = 0;
    while program.words.len() < words {
        match program.random.below(6) {
            0 => limit_setting(&mut program),
            1 if program.random.once_in(6) => limit_init(&mut program),
            _ if figures < 40 => {
                limit_figure(&mut program);
                figures += 1;
            }
            _ => limit_setting(&mut program),
        }
    }
    if program.random.once_in(2) {
        match program.random.below(5) {
            0 => program.subcommand(WINDOW, &[LARGEST_BORDER, LARGEST_BORDER, LARGEST_BORDER, LARGEST_BORDER + 1]),
            1 => bad_parameter(&mut program),
            2 => bad_init(&mut program),
            _ => bad_coordinate(&mut program),
        }
        program.open(T1X);
    }
    program.bytes()
}

fn limit_setting(program: &mut Program) {
    match program.random.below(7) {
        0 => program.subcommand(WINDOW, &[0, LARGEST_BORDER, LARGEST_BORDER, 0, 0]),
        1 => program.subcommand(WINDOW, &[LARGEST_BORDER, LARGEST_BORDER, LARGEST_BORDER, LARGEST_BORDER, 0]),
        2 => program.subcommand(WINDOW, &[0, LARGEST_COORDINATE, LARGEST_COORDINATE, 0, 0]),
        3 => program.subcommand(HCONTROL, &[HARDWARE_BITS]),
        4 => program.subcommand(COLOR, &[65535, 65535]),
        5 => {
            let section = program.random.pick(&[0, 1, 65533, 65534, 65535]);
            program.subcommand(SECTION, &[section]);
            program.subcommand(ZCONTROL, &[DEPTH_BITS]);
        }
        _ => {
            let (mode, shading) = (program.random.below(3), program.random.below(2));
            program.subcommand(LMODE, &[mode]);
            program.subcommand(PMODE, &[shading]);
        }
    }
}

fn limit_init(program: &mut Program) {
    let code = program.random.pick(&[0, 0, 0, 7, 15, 28, 31, 44, 45, 47]);
    program.init(code);
    program.subcommand(HCONTROL, &[6]);
}

fn limit_point(program: &mut Program) -> i64 {
    let (near_x, near_y) = (program.x(), program.y());
    let far = [LARGEST_COORDINATE, LARGEST_COORDINATE - 1];
    let y = program.random.pick(&[0, 0, far[0], far[1], near_y, near_y, near_y]);
    let i = program.random.pick(&[0, 1, 65535, 65535, 65534]);
    let z = program.random.pick(&[0, 1, 65535, 65534, 65534]);
    program.push(I, i);
    program.push(Z, z);
    program.push(Y, y);
    program.random.pick(&[0, 0, far[0], far[1], near_x, near_x, near_x])
}

fn limit_figure(program: &mut Program) {
    program.choose_region();
    let command = program.random.pick(&[T1X, T2X, LX]);
    let x = limit_point(program);
    program.push(command, x);
    if command == LX && program.random.once_in(2) {
        program.subcommand(LSTATUS, &[0]);
    }
    for _ in 0..2 {
        let x = limit_point(program);
        let fits = if program.would_take(X, x) { X } else { PX };
        program.push(fits, x);
    }
}

// Orders.

/// Openings, points, line status and line modes in any order, so that
/// figures are abandoned at every stage.
fn orders(mut program: Program) -> Vec<u8> {
    program.opening();
    let words = program.random.from_to(150, 700) as usize;
    let mut points = 0;
    while program.words.len() < words && points < 80 {
        match program.random.below(12) {
            0 => program.open(T1X),
            1 => program.open(T2X),
            2 | 3 => program.open(LX),
            4 | 5 => program.status_setting(),
            6 => program.line_mode_setting(),
            7 => program.setting(),
            _ => {
                program.add_point();
                points += 1;
            }
        }
        if program.random.once_in(80) {
            program.opening();
        }
    }
    if program.random.once_in(3) {
        stray_point(&mut program);
    }
    program.bytes()
}

/// The point that does not fit, whatever stands open.
fn stray_point(program: &mut Program) {
    let line_of_mode_2 = matches!(program.registers.open, Open::Line(_)) && program.registers.line_mode == 2;
    let command = match program.registers.open {
        Open::Line(_) if !line_of_mode_2 => X,
        _ => PX,
    };
    program.push(command, 7);
    program.open(T2X);
}

// Rubbish.

/// Random words from reset, some with an INIT that is taken before them.
fn rubbish(mut program: Program) -> Vec<u8> {
    let words = program.random.from_to(1, 400);
    if program.random.once_in(3) {
        program.opening();
    }
    for _ in 0..words {
        let (command, data) = (program.random.below(16), program.random.below(65536));
        let small = program.random.below(300);
        let data = if program.random.once_in(2) { data } else { small };
        program.push(command, data);
    }
    program.words.truncate(MOST_WORDS);
    program.bytes()
}

// Damage.

/// A drawing with bytes lost or changed on the way.
fn damaged(mut program: Program) -> Vec<u8> {
    let words = program.random.from_to(100, 700) as usize;
    program.drawing(words);
    let kind = program.random.below(10);
    match kind {
        0..=3 => lost_bytes(program),
        4..=7 => last_half_byte_set(program),
        _ => changed_byte(program),
    }
}

fn lost_bytes(mut program: Program) -> Vec<u8> {
    let mut bytes = program.bytes();
    let lost = program.random.from_to(1, 7);
    for _ in 0..lost {
        let place = program.random.below(bytes.len() as i64) as usize;
        bytes.remove(place);
    }
    bytes
}

fn last_half_byte_set(mut program: Program) -> Vec<u8> {
    if program.words.len() % 2 == 0 {
        program.words.pop();
    }
    let mut bytes = program.bytes();
    if let Some(last) = bytes.last_mut() {
        *last |= program.random.from_to(1, 15) as u8;
    }
    bytes
}

fn changed_byte(mut program: Program) -> Vec<u8> {
    let mut bytes = program.bytes();
    let place = program.random.below(bytes.len() as i64) as usize;
    bytes[place] = program.random.below(256) as u8;
    bytes
}

// Sizes.

/// The lengths at the drawing program's limit, and the empty stream.
fn sizes(mut program: Program) -> Vec<u8> {
    let length = program.random.pick(&[0, 8190, 8190, 8191, 8192, 8193, 20000]) as usize;
    program.drawing(MOST_WORDS);
    let mut bytes = program.bytes();
    while bytes.len() < length {
        let again = bytes.clone();
        bytes.extend(again);
    }
    bytes.truncate(length);
    bytes
}
