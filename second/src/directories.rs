//! Random directories for the overdraw report, with what it should print.

use crate::generator::generate;
use crate::overdraw::report;
use crate::random::Random;
use crate::seeds::write_file;
use crate::stream::pack;
use std::fs;
use std::path::Path;

/// The directory of this seed is full: a thousand recordings, and files
/// behind them.
const FULL: u64 = 0;

/// Writes for each seed the directory SEED, and what the report on it is in
/// the file SEED.expected.
pub fn write(first: u64, count: u64, directory: &str) -> Result<(), String> {
    let directory = Path::new(directory);
    for seed in first..first + count {
        let files = directory.join(seed.to_string());
        fs::create_dir_all(&files).map_err(|error| format!("{}: {}", files.display(), error))?;
        if seed == FULL {
            fill(&files)?;
        } else {
            scatter(seed, &files)?;
        }
        write_file(&directory.join(format!("{}.expected", seed)), report(&files)?.as_bytes())?;
    }
    Ok(())
}

/// Short recordings as 000 to 999, and two files that are not to be read.
fn fill(files: &Path) -> Result<(), String> {
    let mut random = Random::new(FULL);
    for number in 0..1000 {
        write_file(&files.join(format!("{:03}", number)), &short(&mut random))?;
    }
    write_file(&files.join("1000"), &short(&mut random))?;
    write_file(&files.join("0000"), &short(&mut random))
}

/// Some recordings from 000 on, now and then none, and one behind a gap that
/// is not to be read.
fn scatter(seed: u64, files: &Path) -> Result<(), String> {
    let mut random = Random::new(seed);
    let count = random.pick(&[0, 1, 1, 2, 3, 4, 6]);
    for number in 0..count {
        write_file(&files.join(format!("{:03}", number)), &recording(&mut random))?;
    }
    write_file(&files.join(format!("{:03}", count + 1)), &recording(&mut random))
}

/// A random stream, or one of a length that is worth a look.
fn recording(random: &mut Random) -> Vec<u8> {
    match random.below(8) {
        0 => short(random),
        1 => vec![0; random.pick(&[0, 8190, 8192, 8193, 9000]) as usize],
        _ => generate(random.below(1_000_000) as u64),
    }
}

/// A triangle or a line of few pixels, now and then refused at once: nothing,
/// 11, 12 and a reserved command.
fn short(random: &mut Random) -> Vec<u8> {
    match random.below(12) {
        0 => Vec::new(),
        1 => vec![0xF0, 0, 0, 0],
        2 => vec![0xF0, 0, random.from_to(1, 15) as u8],
        3 => vec![0x70, 0, 0],
        mode => few_pixels(mode % 2 == 0, random.below(8)),
    }
}

/// INIT, then a constant triangle or a line of mode 1, of so many pixels
/// across.
fn few_pixels(triangle: bool, across: i64) -> Vec<u8> {
    let words: &[i64] = if triangle {
        &[0xF0000, 0xE0000, 0xD0001, 0x50000, 0x40000 + across, 0x30002, 0x40000]
    } else {
        &[0xF0000, 0x80000, 0xE000C, 0xD0000, 0xB0000 + across]
    };
    pack(words).expect("words of 20 bits")
}
