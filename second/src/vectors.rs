//! What the proved crate `vectors` is run on and held to: one file with all
//! streams, and the lines that it must print.

use crate::edges::{edges, Edge};
use crate::generator::generate;
use crate::printing::{drawing, tiled_drawing};
use crate::seeds::write_file;
use std::fs;
use std::path::Path;

/// How many seeds are among the vectors, from 0.
const SEEDS: u64 = 100;

/// The lines of calls that no stream makes. They are written by hand from
/// document 01 and the list of bounds: nothing here computes them.
const CALLS: &str = include_str!("calls.txt");

/// Writes data/streams and stdout.
pub fn write(directory: &str) -> Result<(), String> {
    let directory = Path::new(directory);
    let data = directory.join("data");
    fs::create_dir_all(&data).map_err(|error| format!("{}: {}", data.display(), error))?;
    let vectors = vectors();
    write_file(&data.join("streams"), &container(&vectors))?;
    let lines: String = vectors.iter().map(line).collect();
    write_file(&directory.join("stdout"), (lines + CALLS).as_bytes())
}

/// All edge cases, and the streams of the seeds.
fn vectors() -> Vec<Edge> {
    let mut vectors = edges();
    for seed in 0..SEEDS {
        vectors.push(Edge { name: format!("seed-{}", seed), bytes: generate(seed) });
    }
    vectors
}

/// How many streams there are, in two bytes; for each the length of its name
/// in one byte, its own length in two, the name and the stream.
fn container(vectors: &[Edge]) -> Vec<u8> {
    let mut bytes = two_bytes(vectors.len()).to_vec();
    for vector in vectors {
        bytes.push(u8::try_from(vector.name.len()).expect("a name is short"));
        bytes.extend(two_bytes(vector.bytes.len()));
        bytes.extend(vector.name.as_bytes());
        bytes.extend(&vector.bytes);
    }
    bytes
}

/// The more significant byte first.
fn two_bytes(length: usize) -> [u8; 2] {
    u16::try_from(length).expect("a length has 16 bits").to_be_bytes()
}

/// The first line of what is printed for a stream, a checksum of all that is
/// printed, and one of what would be in tiles.
fn line(vector: &Edge) -> String {
    let text = drawing(&vector.bytes);
    let Some(tiled) = tiled_drawing(&vector.bytes) else {
        return format!("{}: {}", vector.name, text);
    };
    let first = text.lines().next().unwrap_or("");
    format!("{}: {}, text {:016x}, tiled {:016x}\n", vector.name, first, checksum(text.as_bytes()), checksum(tiled.as_bytes()))
}

/// FNV-1a of 64 bits.
pub fn checksum(bytes: &[u8]) -> u64 {
    bytes.iter().fold(0xcbf2_9ce4_8422_2325, |sum, byte| (sum ^ u64::from(*byte)).wrapping_mul(0x0000_0100_0000_01b3))
}

#[cfg(test)]
mod tests {
    use super::*;

    /// The test vectors that FNV's authors publish.
    #[test]
    fn checksums_are_fnv_1a() {
        assert_eq!(checksum(b""), 0xcbf2_9ce4_8422_2325);
        assert_eq!(checksum(b"a"), 0xaf63_dc4c_8601_ec8c);
        assert_eq!(checksum(b"foobar"), 0x8594_4171_f739_67e8);
    }
}
