//! What the drawing program prints, and the image that the showing program
//! makes.

use crate::picture::Picture;
use crate::run::{run, run_tiled, Outcome};

/// The longest stream that is read.
pub const LONGEST_STREAM: usize = 8192;
/// The places of the drawing program's picture.
pub const PLACES: usize = 8192;

/// The whole output for the bytes of standard input.
pub fn drawing(bytes: &[u8]) -> String {
    match drawing_outcome(bytes) {
        None => "too long\n".to_string(),
        Some((outcome, picture)) => picture_text(&outcome, &picture),
    }
}

/// What the drawing program would print if its memories lay in tiles: places
/// are told as there, whatever pixel lies at them. Nothing if the bytes are too
/// many.
pub fn tiled_drawing(bytes: &[u8]) -> Option<String> {
    (bytes.len() <= LONGEST_STREAM).then(|| {
        let mut picture = Picture::cleared(PLACES);
        let outcome = run_tiled(bytes, &mut picture);
        picture_text(&outcome, &picture)
    })
}

/// What is printed of a run and the picture that it left.
pub fn picture_text(outcome: &Outcome, picture: &Picture) -> String {
    first_line(outcome) + &lit_places(outcome.line_length, picture)
}

/// What running the bytes gives, or nothing if they are too many.
pub fn drawing_outcome(bytes: &[u8]) -> Option<(Outcome, Picture)> {
    if bytes.len() > LONGEST_STREAM {
        return None;
    }
    let mut picture = Picture::cleared(PLACES);
    let outcome = run(bytes, &mut picture);
    Some((outcome, picture))
}

/// A portable graymap of 16 bits: the I memory's rows in use, the topmost
/// first, or nothing where a word is refused.
pub fn image(bytes: &[u8], places: usize) -> Result<Vec<u8>, String> {
    let mut picture = Picture::cleared(places);
    let outcome = run(bytes, &mut picture);
    if outcome.refusal != 0 {
        return Err(format!("refusal {} at word {}", outcome.refusal, outcome.words));
    }
    let length = outcome.line_length as usize;
    let rows = places / length;
    let mut image = format!("P5\n{} {}\n65535\n", length, rows).into_bytes();
    for row in picture.i[..rows * length].chunks(length).rev() {
        image.extend(row.iter().flat_map(|i| (*i as u16).to_be_bytes()));
    }
    Ok(image)
}

fn first_line(outcome: &Outcome) -> String {
    format!("words {} refusal {} passed {}\n", outcome.words, outcome.refusal, outcome.passed)
}

/// Each place with I not 0, as x, y, I, Z, places rising. All places are
/// looked at, also those outside the rows in use (docs/READINGS.md, "Drawing
/// program").
pub fn lit_places(line_length: i64, picture: &Picture) -> String {
    let mut lines = String::new();
    for (place, i) in picture.i.iter().enumerate() {
        if *i != 0 {
            let x = place as i64 % line_length;
            let y = place as i64 / line_length;
            lines += &format!("{} {} {} {}\n", x, y, i, picture.z[place]);
        }
    }
    lines
}
