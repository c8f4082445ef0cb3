//! Damaged recordings by seed, as files, with what they are mended to.

use crate::generator::generate;
use crate::mend::{drawn_skipping, mend};
use crate::printing::LONGEST_STREAM;
use crate::random::Random;
use crate::seeds::write_file;
use std::fs;
use std::path::Path;

/// A recording of a seed, damaged. Its length mod 5 is the seed's.
pub fn damaged(seed: u64) -> Vec<u8> {
    let mut random = Random::new(seed ^ 0x6D65_6E64);
    let mut bytes = generate(seed);
    bytes.truncate(LONGEST_STREAM);
    for _ in 0..random.pick(&[0, 0, 1, 1, 2, 3, 6, 20]) {
        damage(&mut random, &mut bytes);
    }
    while bytes.len() % 5 != (seed % 5) as usize {
        // a recording that breaks off, or one that goes on with rubbish
        if bytes.is_empty() || random.once_in(3) {
            bytes.push(random.below(256) as u8);
        } else {
            bytes.pop();
        }
    }
    // the last half byte is often 0 by itself, or set
    if let (Some(last), true) = (bytes.last_mut(), random.once_in(2)) {
        *last = (*last & 0xF0) | random.pick(&[0, 0, 1, 8, 15]) as u8;
    }
    bytes
}

/// Some bytes changed, lost, or put in. Five bytes are two words: the words
/// behind these stay in step.
fn damage(random: &mut Random, bytes: &mut Vec<u8>) {
    let place = random.below(bytes.len() as i64 + 1) as usize;
    let end = bytes.len().min(place + random.pick(&[1, 2, 5, 5, 5, 10, 3]) as usize);
    match random.below(3) {
        0 => {
            for byte in &mut bytes[place..end] {
                *byte = random.below(256) as u8;
            }
        }
        1 => {
            bytes.drain(place..end);
        }
        _ => {
            let rubbish: Vec<u8> = (place..end).map(|_| random.below(256) as u8).collect();
            bytes.splice(place..place, rubbish);
        }
    }
}

/// Writes for each seed SEED.rec, the damaged recording; SEED.good, what it
/// is mended to; SEED.said, the list and the summary or nothing; and SEED.drawn, what
/// the drawing program should print for SEED.good, if that is short enough.
pub fn write(first: u64, count: u64, directory: &str) -> Result<(), String> {
    let directory = Path::new(directory);
    fs::create_dir_all(directory).map_err(|error| format!("{}: {}", directory.display(), error))?;
    for seed in first..first + count {
        let bytes = damaged(seed);
        let mended = mend(&bytes);
        let good = mended.stream();
        let file = |part: &str| directory.join(format!("{}.{}", seed, part));
        write_file(&file("rec"), &bytes)?;
        write_file(&file("said"), mended.said().as_bytes())?;
        if good.len() <= LONGEST_STREAM {
            write_file(&file("drawn"), drawn_skipping(&bytes).as_bytes())?;
        }
        write_file(&file("good"), &good)?;
    }
    Ok(())
}
