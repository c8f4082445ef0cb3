//! Random streams as files, with what they should print.

use crate::generator::generate;
use crate::printing::drawing;
use std::fs;
use std::path::Path;

/// Writes SEED.rec for each seed, and the file `expected`: for each seed a
/// line `seed SEED` and the whole output.
pub fn write(first: u64, count: u64, directory: &str) -> Result<(), String> {
    let directory = Path::new(directory);
    let mut expected = String::new();
    for seed in first..first + count {
        let bytes = generate(seed);
        expected += &format!("seed {}\n{}", seed, drawing(&bytes));
        write_file(&directory.join(format!("{}.rec", seed)), &bytes)?;
    }
    write_file(&directory.join("expected"), expected.as_bytes())
}

/// Writes a file, and names it where that fails.
pub fn write_file(path: &Path, bytes: &[u8]) -> Result<(), String> {
    fs::write(path, bytes).map_err(|error| format!("{}: {}", path.display(), error))
}
