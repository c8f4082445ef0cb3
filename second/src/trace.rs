//! A recording's words with what the machine made of each, as text; and
//! those alone that have a pixel at a place that is asked for.

use crate::commands::{self, parameter_count, Accepted};
use crate::commands::{AUX, CORNERS_FROM_MEMORY, CORNERS_TO_MEMORY, I, IMG, INIT, LX, PARM, PTRN, PX, T1X, T2X, X, Y, Z};
use crate::figures::Figure;
use crate::generator;
use crate::picture::Picture;
use crate::registers::{bit, Open, Registers, CONSTANT};
use crate::seeds::write_file;
use crate::stream::{self, Word};
use std::fs;
use std::path::Path;

/// The longest recording that is traced, and the places of the picture.
pub const LONGEST_RECORDING: usize = 1_048_576;
const PLACES: usize = 1_048_576;

const COMMANDS: [&str; 16] =
    ["PTRN", "I", "Z", "Y", "X", "T1X", "T2X", "RSVD", "LX", "IMG", "ADDR", "PX", "RSVD", "PARM", "AUX", "INIT"];
const SUBCOMMANDS: [&str; 13] = [
    "PMODE", "LMODE", "IMODE", "ZCONTROL", "HCONTROL", "TPATTERN", "WINDOW", "SECTION", "COLOR", "LPATTERN", "MASK",
    "unmodelled", "LSTATUS",
];

/// One word of the run: what stood before it, and what came of it.
struct Step<'a> {
    index: usize,
    word: Word,
    before: &'a Registers,
    answer: &'a Result<Accepted, i64>,
    passed: u64,
}

/// The name and, of a parameter, which of how many it is. A word that is
/// refused means what it would have meant.
fn meaning(registers: &Registers, word: Word) -> (&'static str, Option<(usize, usize)>) {
    match word.command {
        INIT => ("start", None),
        AUX => match SUBCOMMANDS.get(word.data as usize) {
            None => ("nothing", None),
            Some(name) if word.data == 11 => (name, None),
            Some(name) => (name, Some((0, parameter_count(word.data)))),
        },
        PARM => match &registers.awaiting {
            None => ("nothing", None),
            Some(awaiting) => (awaited_name(awaiting.subcommand), Some((awaiting.parked.len() + 1, parameter_count(awaiting.subcommand)))),
        },
        IMG => (if bit(word.data, 0) { "save" } else { "load" }, Some((0, parameter_count(CORNERS_TO_MEMORY)))),
        PTRN => (if registers.pictures_are_depths() { "pixelZ" } else { "pixelI" }, None),
        I => ("intensity", None),
        Z => ("depth", None),
        Y => ("row", None),
        T1X => ("strip", None),
        T2X => ("fan", None),
        LX => ("line", None),
        X | PX => (completed_name(registers), None),
        0xA => ("unmodelled", None),
        _ => ("reserved", None),
    }
}

fn awaited_name(subcommand: i64) -> &'static str {
    match subcommand {
        CORNERS_TO_MEMORY => "load",
        CORNERS_FROM_MEMORY => "save",
        number => SUBCOMMANDS[number as usize],
    }
}

/// What one more vertex completes, by the modes of the moment.
fn completed_name(registers: &Registers) -> &'static str {
    match &registers.open {
        Open::Strip(vertices) | Open::Fan(vertices) if vertices.len() >= 2 => match registers.shading {
            CONSTANT => "constant",
            _ => "gouraud",
        },
        Open::Line(_) if !registers.invisible => ["line0", "line1", "line2"][registers.line_mode as usize],
        _ => "nothing",
    }
}

/// The line of a word, without its end.
fn line(step: &Step) -> String {
    let (name, place) = meaning(step.before, step.word);
    let place = place.map_or("-".to_string(), |(place, of)| format!("{}/{}", place, of));
    let refusal = step.answer.as_ref().err().copied().unwrap_or(0);
    format!(
        "{:05X} # {:07} {:<4} {:04X} {:<10} {:<3} {:02} {:07}",
        step.word.number(), step.index, COMMANDS[step.word.command as usize], step.word.data, name, place, refusal, step.passed
    )
}

/// Runs a recording word by word and shows each step, with the picture before
/// and after it; or tells 11 or 12.
fn walk(bytes: &[u8], mut show: impl FnMut(&Step, (i64, i64), (i64, i64), bool), pixel: (i64, i64)) -> Result<(), i64> {
    let (x, y) = pixel;
    let mut picture = Picture::cleared(PLACES);
    let mut registers = Registers::reset();
    for (index, word) in stream::unpack(bytes)?.into_iter().enumerate() {
        let answer = commands::step(&registers, word);
        let stood = picture.numbers(x, y, &registers);
        let mut step = Step { index, word, before: &registers, answer: &answer, passed: 0 };
        let mut hit = false;
        if let Ok(accepted) = &answer {
            hit = has_pixel(accepted, &picture, x, y);
            step.passed = picture.take(accepted);
        }
        show(&step, stood, picture.numbers(x, y, &registers), hit);
        match answer {
            Ok(accepted) => registers = accepted.registers,
            Err(_) => break,
        }
    }
    Ok(())
}

/// Whether an accepted word passes pixel (x, y), or is a picture's pixel that
/// goes there.
fn has_pixel(accepted: &Accepted, picture: &Picture, x: i64, y: i64) -> bool {
    let drawn = accepted.figure.as_ref().is_some_and(|figure| picture.passes_at(figure, &accepted.registers, x, y));
    let loaded = accepted.pixel.is_some_and(|pixel| (pixel.x, pixel.y) == (x, y) && picture.has(x, y, &accepted.registers));
    drawn || loaded
}

/// All words, to the first that is refused.
pub fn trace(bytes: &[u8]) -> String {
    let mut text = String::new();
    match walk(bytes, |step, _, _, _| text += &(line(step) + "\n"), (0, 0)) {
        Ok(()) => text,
        Err(refusal) => format!("refusal {}\n", refusal),
    }
}

/// Those with a pixel at (x, y), with its two numbers before and after.
pub fn watch(bytes: &[u8], x: i64, y: i64) -> String {
    let mut text = String::new();
    let walked = walk(
        bytes,
        |step, stood, stands, hit| {
            if hit {
                text += &format!("{} {:05} {:05} {:05} {:05}\n", line(step), stood.0, stood.1, stands.0, stands.1);
            }
        },
        (x, y),
    );
    match walked {
        Ok(()) => text,
        Err(refusal) => format!("refusal {}\n", refusal),
    }
}

/// A pixel that many words have: of some points that the recording's figures
/// and pictures' pixels suggest, the one that the most words have.
fn busy_pixel(bytes: &[u8]) -> (i64, i64) {
    let mut points = vec![(0, 0)];
    let mut registers = Registers::reset();
    let mut taken = Vec::new();
    for word in stream::unpack(bytes).unwrap_or_default() {
        let Ok(accepted) = commands::step(&registers, word) else { break };
        points.extend(accepted.figure.as_ref().map(middle));
        points.extend(accepted.pixel.map(|pixel| (pixel.x, pixel.y)));
        registers = accepted.registers.clone();
        taken.push(accepted);
    }
    // a fresh picture stands for all: which words offer a pixel follows from the words
    let fresh = Picture::cleared(PLACES);
    let every = points.len() / 40 + 1;
    let often = |(x, y): &(i64, i64)| taken.iter().filter(|accepted| has_pixel(accepted, &fresh, *x, *y)).count();
    points.into_iter().step_by(every).max_by_key(often).unwrap_or((0, 0))
}

/// The middle of a triangle, or the end of a segment.
fn middle(figure: &Figure) -> (i64, i64) {
    match figure {
        Figure::Triangle { corners, .. } => {
            (corners.iter().map(|corner| corner.x).sum::<i64>() / 3, corners.iter().map(|corner| corner.y).sum::<i64>() / 3)
        }
        Figure::Segment { to, .. } => (to.x, to.y),
    }
}

/// Writes for each seed the random stream `SEED.rec`, its trace `SEED.trace`,
/// a pixel `SEED.pixel`, and the words that have it, `SEED.watch`.
pub fn write(first: u64, count: u64, directory: &str) -> Result<(), String> {
    let directory = Path::new(directory);
    fs::create_dir_all(directory).map_err(|error| format!("{}: {}", directory.display(), error))?;
    for seed in first..first + count {
        let bytes = generator::generate(seed);
        let (x, y) = busy_pixel(&bytes);
        let put = |kind: &str, text: &[u8]| write_file(&directory.join(format!("{}.{}", seed, kind)), text);
        put("rec", &bytes)?;
        put("trace", trace(&bytes).as_bytes())?;
        put("pixel", format!("{} {}", x, y).as_bytes())?;
        put("watch", watch(&bytes, x, y).as_bytes())?;
    }
    Ok(())
}
