//! Random pictures for viewers' squares, what both calls answer for them, and
//! the two files that a host's program is run on and held to.

use crate::random::Random;
use crate::seeds::write_file;
use crate::squares::Case;
use crate::vectors::checksum;
use std::collections::BTreeSet;
use std::path::Path;

/// Every outcome that a call can come to. Seeds among which one is missing
/// would leave it untried.
const OUTCOMES: [&str; 8] = [
    "listed: none",
    "listed: some",
    "listed: refused with 2",
    "listed: refused with 9",
    "listed: refused with 13",
    "copied",
    "copied: refused with 2",
    "copied: refused with 9",
];

/// Writes the file `cases`, how many there are and then each, and the file
/// `expected`, the lines of each.
pub fn write(first: u64, count: u64, directory: &str) -> Result<(), String> {
    let number = u32::try_from(count).map_err(|_| "too many seeds".to_string())?;
    let (mut bytes, mut lines, mut came) = (number.to_be_bytes().to_vec(), String::new(), BTreeSet::new());
    for k in 0..count {
        let case = generate(first + k);
        store(&case, &mut bytes);
        lines += &line(k, "listed", &listed(&case, &mut came));
        lines += &line(k, "copied", &copied(&case, &mut came));
    }
    if let Some(missing) = OUTCOMES.iter().find(|outcome| !came.contains(**outcome)) {
        return Err(format!("no case came to this: {}", missing));
    }
    let directory = Path::new(directory);
    write_file(&directory.join("cases"), &bytes)?;
    write_file(&directory.join("expected"), lines.as_bytes())
}

// ---- what is printed

fn line(k: u64, call: &str, answer: &str) -> String {
    format!("case {}: {}:{}\n", k, call, answer)
}

fn listed(case: &Case, came: &mut BTreeSet<String>) -> String {
    match case.listed() {
        Ok(corners) => {
            came.insert(format!("listed: {}", if corners.is_empty() { "none" } else { "some" }));
            corners.iter().map(|(x, y)| format!(" ({},{})", x, y)).collect()
        }
        Err(refusal) => refused("listed", refusal, came),
    }
}

fn copied(case: &Case, came: &mut BTreeSet<String>) -> String {
    match case.copied() {
        Ok(view) => {
            came.insert("copied".to_string());
            let bytes: Vec<u8> = view.iter().flat_map(|number| number.to_be_bytes()).collect();
            format!(" {}, view {:016x}", case.list.len(), checksum(&bytes))
        }
        Err(refusal) => refused("copied", refusal, came),
    }
}

fn refused(call: &str, refusal: u64, came: &mut BTreeSet<String>) -> String {
    came.insert(format!("{}: refused with {}", call, refusal));
    format!(" refused with {}", refusal)
}

// ---- what is stored

/// Seven numbers of 32 bits, the three pictures with 16 bits a place, and the
/// list with 32 a square, the more significant byte first.
fn store(case: &Case, bytes: &mut Vec<u8>) {
    let sizes = [case.before.len(), case.after.len(), case.view.len(), case.list.len()];
    for number in [case.width, case.rows, case.room].into_iter().chain(sizes) {
        bytes.extend(u32::try_from(number).expect("a number has 32 bits").to_be_bytes());
    }
    for picture in [&case.before, &case.after, &case.view] {
        bytes.extend(picture.iter().flat_map(|number| number.to_be_bytes()));
    }
    bytes.extend(case.list.iter().flat_map(|number| number.to_be_bytes()));
}

// ---- random cases

fn generate(seed: u64) -> Case {
    let mut random = Random::new(seed);
    let (width, rows) = (extent(&mut random, 1), extent(&mut random, 0));
    let before = noise(&mut random, width * rows);
    let after = changed(&mut random, &before, width);
    let view = if random.once_in(4) { noise(&mut random, width * rows) } else { before.clone() };
    let mut case = Case { width, rows, room: 1024, before, after, view, list: vec![] };
    let corners = case.listed().expect("the size is allowed, and there is room");
    case.list = corners.iter().map(|(x, y)| y * 65536 + x).collect();
    case.room = match random.below(4) {
        0 => corners.len().saturating_sub(1),
        1 => corners.len() + 1,
        2 => 1024,
        _ => corners.len(),
    };
    if random.once_in(3) {
        spoil_list(&mut random, &mut case);
    }
    if random.once_in(4) {
        spoil_size(&mut random, &mut case);
    }
    case
}

/// A width or a number of rows, often one near a multiple of 8 or the most.
fn extent(random: &mut Random, least: i64) -> usize {
    let number = match random.below(8) {
        0 => least,
        1 => random.pick(&[255, 256]),
        2 => random.below(257),
        3 => random.from_to(1, 8) * 8,
        4 => random.from_to(1, 8) * 8 + random.from_to(-1, 1),
        _ => random.below(40),
    };
    number.max(least) as usize
}

fn noise(random: &mut Random, places: usize) -> Vec<u16> {
    (0..places).map(|_| random.below(65536) as u16).collect()
}

/// The picture with nothing changed, some pixels, an upright rectangle, or
/// everything. A change may be of one bit.
fn changed(random: &mut Random, picture: &[u16], width: usize) -> Vec<u16> {
    let mut after = picture.to_vec();
    if after.is_empty() {
        return after;
    }
    let places = after.len() as i64;
    match random.below(8) {
        0 => {}
        1 => after = noise(random, after.len()),
        2 | 3 => {
            let (first, second) = (random.below(places) as usize, random.below(places) as usize);
            let columns = (first % width).min(second % width)..=(first % width).max(second % width);
            for at in first.min(second)..=first.max(second) {
                if columns.contains(&(at % width)) {
                    after[at] ^= 0xFFFF;
                }
            }
        }
        4 => after[places as usize - 1] ^= 1,
        _ => {
            for _ in 0..random.from_to(1, 6) {
                after[random.below(places) as usize] ^= 1 << random.below(16);
            }
        }
    }
    after
}

/// Squares left out, listed twice or in another order; a square that has no
/// difference; a number that tells no square.
fn spoil_list(random: &mut Random, case: &mut Case) {
    let place = random.below(case.list.len() as i64 + 1) as usize;
    let (x, y) = (random.below(case.width as i64) as u32, random.below(case.rows as i64 + 1) as u32);
    match random.below(6) {
        0 => case.list.truncate(place),
        1 => case.list.extend_from_within(..place),
        2 => case.list.reverse(),
        3 => case.list.insert(place, y / 8 * 8 * 65536 + x / 8 * 8),
        4 => case.list.insert(place, y * 65536 + x),
        _ => case.list.insert(place, random.below(1 << 32) as u32),
    }
}

/// Another width, other rows, or a picture that is longer or shorter.
fn spoil_size(random: &mut Random, case: &mut Case) {
    match random.below(7) {
        0 => case.width = 0,
        1 => case.width = 257,
        2 => case.rows = 257,
        3 => std::mem::swap(&mut case.width, &mut case.rows),
        4 => case.after.push(0),
        5 => case.view.truncate(1),
        _ => {
            for picture in [&mut case.before, &mut case.after, &mut case.view] {
                picture.push(0);
            }
        }
    }
}
