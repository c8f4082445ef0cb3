//! The overdraw report (document 02, [11]): what the recordings of a
//! directory draw for nothing.

use crate::figures::Figure;
use crate::picture::Picture;
use crate::printing::{LONGEST_STREAM, PLACES};
use crate::registers::CONSTANT;
use crate::run::watched;
use std::fs;
use std::io::ErrorKind;
use std::path::Path;

/// The kinds, in the order of their lines.
const KINDS: [&str; 5] = ["gouraud", "constant", "line0", "line1", "line2"];

/// What one kind comes to.
#[derive(Clone, Copy, Debug, Default, PartialEq, Eq)]
pub struct Count {
    figures: u64,
    offered: u64,
    passed: u64,
    hidden: u64,
}

/// A count for each kind.
pub type Counts = [Count; 5];

/// What a recording comes to: too long, or its counts and its refusal.
pub enum Entry {
    TooLong,
    Counted(Counts, i64),
}

/// Where a figure's kind stands among the kinds.
fn kind_of(figure: &Figure) -> usize {
    match figure {
        Figure::Triangle { shading, .. } if *shading == CONSTANT => 1,
        Figure::Triangle { .. } => 0,
        Figure::Segment { mode, .. } => 2 + *mode as usize,
    }
}

/// Runs a recording on a fresh picture and counts its figures and pixels,
/// each pixel by itself.
pub fn entry(bytes: &[u8]) -> Entry {
    if bytes.len() > LONGEST_STREAM {
        return Entry::TooLong;
    }
    let mut counts = Counts::default();
    let mut picture = Picture::cleared(PLACES);
    let outcome = watched(bytes, &mut picture, |figure, registers, picture| {
        let count = &mut counts[kind_of(figure)];
        count.figures += 1;
        for passes in picture.fates(figure, registers) {
            count.offered += 1;
            if passes {
                count.passed += 1;
            } else {
                count.hidden += 1;
            }
        }
    });
    let passed: u64 = counts.iter().map(|count| count.passed).sum();
    assert_eq!(passed, outcome.passed, "the pixels that would pass are those that did");
    Entry::Counted(counts, outcome.refusal)
}

/// The report of a directory: of its files 000, 001 and on to 999, until one
/// is missing.
pub fn report(directory: &Path) -> Result<String, String> {
    let mut text = heading();
    let mut total = Counts::default();
    for number in 0..1000 {
        let name = format!("{:03}", number);
        match fs::read(directory.join(&name)) {
            Ok(bytes) => text += &entry_lines(&name, &entry(&bytes), &mut total),
            Err(error) if error.kind() == ErrorKind::NotFound => break,
            Err(error) => return Err(format!("{}: {}", name, error)),
        }
    }
    Ok(text + &count_lines("total", &total))
}

fn heading() -> String {
    line(&["file", "kind", "figures", "offered", "passed", "hidden", "percent"])
}

/// A line in columns: two to the left, five to the right.
fn line(fields: &[&str; 7]) -> String {
    let [name, kind, figures, offered, passed, hidden, percent] = fields;
    format!("{name:<6}{kind:<8}{figures:>8}{offered:>16}{passed:>16}{hidden:>16}{percent:>8}\n")
}

/// The lines of a recording, which is added to the total.
fn entry_lines(name: &str, entry: &Entry, total: &mut Counts) -> String {
    match entry {
        Entry::TooLong => format!("{:<6}too long\n", name),
        Entry::Counted(counts, refusal) => {
            for (sum, count) in total.iter_mut().zip(counts) {
                sum.figures += count.figures;
                sum.offered += count.offered;
                sum.passed += count.passed;
                sum.hidden += count.hidden;
            }
            let refused = if *refusal == 0 { String::new() } else { format!("{:<6}{:<8}{:>8}\n", name, "refusal", refusal) };
            count_lines(name, counts) + &refused
        }
    }
}

fn count_lines(name: &str, counts: &Counts) -> String {
    let kinds = KINDS.iter().zip(counts);
    kinds.map(|(kind, count)| count_line(name, kind, count)).collect()
}

/// The share that is hidden is rounded down, and 0 of nothing.
fn count_line(name: &str, kind: &str, count: &Count) -> String {
    let percent = if count.offered == 0 { 0 } else { 100 * count.hidden / count.offered };
    let numbers = [count.figures, count.offered, count.passed, count.hidden, percent].map(|number| number.to_string());
    let [figures, offered, passed, hidden, percent] = &numbers;
    line(&[name, kind, figures, offered, passed, hidden, percent])
}

#[cfg(test)]
mod tests {
    use super::*;
    use crate::hexwords::pack_text;

    fn counted(words: &str) -> (Counts, i64) {
        let bytes = pack_text(words.replace(' ', "\n").as_bytes()).expect("words");
        match entry(&bytes) {
            Entry::TooLong => panic!("too long"),
            Entry::Counted(counts, refusal) => (counts, refusal),
        }
    }

    /// Depth test and both enables on, constant triangles of three pixels.
    const BEGIN: &str = "F0000 E0004 D0006 E0003 D0040 E0000 D0001 10001";

    #[test]
    fn hidden_pixels_are_told() {
        let near = "20005 30000 50000 40002 30002 40000";
        let far = "20009 30000 50000 40002 30002 40000";
        let (counts, _) = counted(&format!("{BEGIN} {near} {far}"));
        assert_eq!(counts[1], Count { figures: 2, offered: 6, passed: 3, hidden: 3 });
        let (counts, _) = counted(&format!("{BEGIN} {far} {near}"));
        assert_eq!(counts[1], Count { figures: 2, offered: 6, passed: 6, hidden: 0 });
    }

    #[test]
    fn without_depth_test_nothing_is_hidden() {
        let twice = "E0003 D0000 20005 30000 50000 40002 30002 40000 30000 50000 40002 30002 40000";
        let (counts, _) = counted(&format!("{BEGIN} {twice}"));
        assert_eq!(counts[1], Count { figures: 2, offered: 6, passed: 6, hidden: 0 });
    }

    #[test]
    fn degenerate_clipped_and_cut_figures_are_figures_and_invisible_ones_are_none() {
        let flat = "30000 50000 40002 40004";
        let clipped = "E0006 D0100 D0100 D0100 D0100 D0000 30000 50000 40002 30002 40000";
        let (counts, _) = counted(&format!("{BEGIN} {flat} {clipped}"));
        assert_eq!(counts[1], Count { figures: 2, ..Count::default() });
        let cut = "E0003 D0060 E0007 D0009 2000A 30000 50000 40002 30002 40000";
        let (counts, _) = counted(&format!("{BEGIN} {cut}"));
        assert_eq!(counts[1], Count { figures: 1, ..Count::default() });
        let unseen = "80000 E000C D0020 B0005 E000C D0000 B0009";
        let (counts, _) = counted(&format!("{BEGIN} {unseen}"));
        assert_eq!(counts[3], Count { figures: 1, offered: 5, passed: 5, hidden: 0 });
    }

    #[test]
    fn a_refused_stream_counts_up_to_there() {
        let (counts, refusal) = counted(&format!("{BEGIN} 30000 50000 40002 30002 40000 70000 40002"));
        assert_eq!((counts[1].figures, refusal), (1, 4));
        assert!(matches!(entry(&[0; 4]), Entry::Counted(counts, 11) if counts == Counts::default()));
        assert!(matches!(entry(&[0xF0, 0, 1]), Entry::Counted(counts, 12) if counts == Counts::default()));
        assert!(matches!(entry(&[0; 8193]), Entry::TooLong));
    }
}
