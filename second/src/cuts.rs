//! Random streams cut at random places, for comparing a recording in
//! instalments call by call.

use crate::generator::generate;
use crate::instalments::Instalments;
use crate::picture::Picture;
use crate::printing::PLACES;
use crate::random::Random;
use crate::run::Outcome;
use crate::seeds::write_file;
use crate::vectors::checksum;
use std::path::Path;

/// Writes `cuts`, the instalments of each seed's stream, and `expected`, what
/// each call should tell. Fails where the seeds are too much alike.
pub fn write(first: u64, count: u64, directory: &str) -> Result<(), String> {
    let directory = Path::new(directory);
    let (mut cuts, mut expected) = (Vec::new(), String::new());
    for seed in first..first + count {
        let parts = instalments(seed);
        put(&parts, &mut cuts);
        expected += &format!("stream\n{}", calls(&parts));
    }
    for line in ["end 0 ", "end 11 ", "end 12 ", "end 9 "] {
        let came = expected.lines().filter(|told| told.starts_with(line) && !told.starts_with(&format!("{}0 ", line))).count();
        if came == 0 {
            return Err(format!("no stream ends with '{}' after some words", line.trim_end()));
        }
    }
    write_file(&directory.join("cuts"), &cuts)?;
    write_file(&directory.join("expected"), expected.as_bytes())
}

/// A seed's stream, every third cut short anywhere, in instalments.
fn instalments(seed: u64) -> Vec<Vec<u8>> {
    let mut bytes = generate(seed);
    let mut random = Random::new(!seed);
    if random.once_in(3) {
        bytes.truncate(random.from_to(0, bytes.len() as i64) as usize);
    }
    let most = random.pick(&[1, 2, 3, 5, 8, 100, 1000, 10000, 20000]);
    let mut parts = Vec::new();
    let mut rest = bytes.as_slice();
    while !rest.is_empty() {
        let size = (random.from_to(0, most) as usize).min(rest.len());
        parts.push(rest[..size].to_vec());
        rest = &rest[size..];
    }
    if random.once_in(4) {
        parts.push(Vec::new());
    }
    parts
}

/// How many instalments there are, and each with its length before it; such
/// a number is two bytes, the more significant first.
fn put(parts: &[Vec<u8>], out: &mut Vec<u8>) {
    let number = |length: usize| u16::try_from(length).expect("a number has 16 bits").to_be_bytes();
    out.extend(number(parts.len()));
    for part in parts {
        out.extend(number(part.len()));
        out.extend(part);
    }
}

/// What each call tells: the instalments, the end, and then the first
/// instalment and the end once more; then the line length and a checksum of
/// both memories.
fn calls(parts: &[Vec<u8>]) -> String {
    let mut picture = Picture::cleared(PLACES);
    let mut recording = Instalments::begun();
    let mut lines = String::new();
    for part in parts {
        lines += &line("", &recording.feed(part, &mut picture));
    }
    lines += &line("end ", &recording.end());
    let first = parts.first().map(Vec::as_slice).unwrap_or(&[]);
    lines += &line("again ", &recording.feed(first, &mut picture));
    let last = recording.end();
    lines += &line("again ", &last);
    let numbers = picture.i.iter().zip(&picture.z).flat_map(|(i, z)| [*i, *z]);
    let bytes: Vec<u8> = numbers.flat_map(|number| (number as u16).to_be_bytes()).collect();
    lines + &format!("line {} memories {:016x}\n", last.line_length, checksum(&bytes))
}

fn line(name: &str, told: &Outcome) -> String {
    format!("{}{} {} {}\n", name, told.refusal, told.words, told.passed)
}
