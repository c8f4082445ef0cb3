//! Document 01's examples, line by line, and some of the readings.

use crate::commands::*;
use crate::edges::{packed, SHEET_LINES};
use crate::figures::{between, step_at, Figure};
use crate::picture::{transparency_keeps, Picture};
use crate::printing::drawing;
use crate::registers::{line_length_of, Layout, Registers, Vertex, CONSTANT, GOURAUD};
use crate::run::{run, Outcome};
use crate::stream::{pack, unpack};

fn vertex(x: i64, y: i64) -> Vertex {
    Vertex { x, y, i: 1, z: 1 }
}

/// The pixels of a segment in the order of its steps.
fn line(from: (i64, i64), to: (i64, i64)) -> Vec<(i64, i64)> {
    let (from, to) = (vertex(from.0, from.1), vertex(to.0, to.1));
    let mut lit = Vec::new();
    for y in 0..40 {
        for x in 0..40 {
            lit.extend(step_at(from, to, x, y).map(|k| (k, x, y)));
        }
    }
    lit.sort_unstable();
    lit.into_iter().map(|(_, x, y)| (x, y)).collect()
}

/// The pixels of a triangle, rows rising, from left to right.
fn triangle(corners: [(i64, i64); 3]) -> Vec<(i64, i64)> {
    let corners = corners.map(|corner| vertex(corner.0, corner.1));
    let figure = Figure::Triangle { corners, shading: GOURAUD };
    let registers = Registers::initial(256, Layout::Rows);
    let mut covered = Vec::new();
    for y in 0..20 {
        for x in 0..20 {
            if figure.at(&registers, x, y).is_some() {
                covered.push((x, y));
            }
        }
    }
    covered
}

/// Runs words from reset over the drawing program's picture.
fn run_words(words: &str) -> (Outcome, Picture) {
    let mut picture = Picture::cleared(8192);
    let outcome = run(&packed(words), &mut picture);
    (outcome, picture)
}

/// Words taken and the refusal.
fn stopped(words: &str) -> (i64, i64) {
    let outcome = run_words(words).0;
    (outcome.words, outcome.refusal)
}

/// The refusal of the last word, which is the first that is refused.
fn last_refusal(words: &str) -> i64 {
    let (outcome, _) = run_words(words);
    let count = words.split_whitespace().count() as i64;
    let expected = if outcome.refusal == 0 { count } else { count - 1 };
    assert_eq!(outcome.words, expected, "{}", words);
    outcome.refusal
}

#[test]
fn line_pixels() {
    assert_eq!(line((0, 0), (2, 1)), [(0, 0), (1, 1), (2, 1)]);
    assert_eq!(line((2, 1), (0, 0)), [(2, 1), (1, 0), (0, 0)]);
    assert_eq!(line((3, 3), (3, 3)), [(3, 3)]);
}

/// The question put to each pixel agrees with the steps of the text.
#[test]
fn line_pixels_by_steps() {
    for (dx, dy) in [(9, 4), (9, -4), (-9, 4), (-9, -4), (4, 9), (-4, 9), (4, -9), (-4, -9), (5, 5), (-6, 6), (0, 7), (7, 0)] {
        let (n, m) = (i64::max(i64::abs(dx), i64::abs(dy)), i64::min(i64::abs(dx), i64::abs(dy)));
        let mut steps = Vec::new();
        for k in 0..=n {
            let aside = (2 * k * m + n) / (2 * n);
            let (along_x, along_y) = if i64::abs(dx) >= i64::abs(dy) { (k, aside) } else { (aside, k) };
            steps.push((15 + i64::signum(dx) * along_x, 15 + i64::signum(dy) * along_y));
        }
        assert_eq!(line((15, 15), (15 + dx, 15 + dy)), steps);
    }
}

#[test]
fn mode_2_numbers() {
    let three: Vec<i64> = (0..=3).map(|k| between(0, 10, k, 3)).collect();
    assert_eq!(three, [0, 3, 7, 10]);
    let two: Vec<i64> = (0..=2).map(|k| between(5, 0, k, 2)).collect();
    assert_eq!(two, [5, 3, 0]);
    assert_eq!(between(5, 9, 0, 0), 9);
}

#[test]
fn mode_2_numbers_drawn() {
    let words = "F0000 E0004 D0006 E0001 D0002 10000 20000 80000 E000C D0010 1000A 2000A 40003";
    assert_eq!(drawing(&packed(words)), "words 13 refusal 0 passed 4\n1 0 3 3\n2 0 7 7\n3 0 10 10\n");
    let words = "F0000 E0004 D0006 E0001 D0002 10005 20005 80000 E000C D0010 10000 20000 40002";
    assert_eq!(drawing(&packed(words)), "words 13 refusal 0 passed 3\n0 0 5 5\n1 0 3 3\n");
}

#[test]
fn triangle_coverage() {
    assert_eq!(triangle([(0, 0), (2, 0), (0, 2)]), [(0, 0), (1, 0), (0, 1)]);
    assert_eq!(triangle([(0, 0), (0, 2), (2, 0)]), [(0, 0), (1, 0), (0, 1)]);
    assert_eq!(triangle([(2, 0), (2, 2), (0, 2)]), [(1, 1)]);
    assert_eq!(triangle([(2, 0), (0, 2), (2, 2)]), [(1, 1)]);
    assert_eq!(triangle([(0, 0), (1, 1), (2, 2)]), []);
}

/// The two halves of a square cover each of its pixels once.
#[test]
fn shared_edge_covered_once() {
    let mut both = triangle([(1, 1), (9, 1), (1, 9)]);
    both.extend(triangle([(9, 1), (9, 9), (1, 9)]));
    both.sort_unstable();
    let square: Vec<(i64, i64)> = (1..9).flat_map(|x| (1..9).map(move |y| (x, y))).collect();
    assert_eq!(both, square);
}

#[test]
fn transparency_residues() {
    for y in 0..12 {
        for x in 0..12 {
            assert_eq!(transparency_keeps(0x8000, x, y), x % 4 == 3 && y % 4 == 3);
        }
    }
}

#[test]
fn packed_lengths() {
    assert_eq!(unpack(&[]).unwrap().len(), 0);
    assert_eq!(unpack(&[0; 3]).unwrap().len(), 1);
    assert_eq!(unpack(&[0; 5]).unwrap().len(), 2);
    assert_eq!(unpack(&[0; 4]).unwrap_err(), 11);
    assert_eq!(unpack(&[0; 1]).unwrap_err(), 11);
    assert_eq!(unpack(&[0; 2]).unwrap_err(), 11);
    assert_eq!(unpack(&[0, 0, 1]).unwrap_err(), 12);
    assert_eq!(unpack(&[0, 0, 0x10]).unwrap()[0].number(), 1);
    assert_eq!(unpack(&[0xFF; 4]).unwrap_err(), 11);
}

#[test]
fn packing_there_and_back() {
    let numbers = [0xF0000, 0x12345, 0xFFFFF, 0, 0xABCDE];
    for count in 0..=numbers.len() {
        let bytes = pack(&numbers[..count]).unwrap();
        assert_eq!(bytes.len(), (5 * count + 1) / 2);
        let back: Vec<i64> = unpack(&bytes).unwrap().iter().map(|word| word.number()).collect();
        assert_eq!(back, numbers[..count]);
    }
    assert_eq!(pack(&[0, 1_048_576]).unwrap_err(), 1);
}

#[test]
fn line_codes() {
    assert_eq!(last_refusal("F1000"), 9);
    assert_eq!(line_length_of(16), None);
    assert_eq!(line_length_of(47), Some(8768));
    assert_eq!((0..64).filter(|code| line_length_of(*code).is_some()).count(), 36);
    assert_eq!(last_refusal("F2F00"), 0);
    assert_eq!(run_words("F2F00").0.line_length, 8768);
}

/// The sheet's own table, codes as bits, against document 01's.
#[test]
fn line_lengths_of_the_sheet() {
    let sheet = [
        ("000000", 256), ("000001", 320), ("000010", 384), ("000011", 448), ("000100", 512), ("000101", 576),
        ("000110", 640), ("000111", 704), ("010010", 768), ("010011", 832), ("001000", 1024), ("001001", 1088),
        ("001010", 1152), ("001011", 1216), ("010110", 1280), ("010111", 1344), ("100010", 1536), ("100011", 1600),
        ("001100", 2048), ("001101", 2112), ("001110", 2176), ("001111", 2240), ("011010", 2304), ("011011", 2368),
        ("100110", 2560), ("100111", 2624), ("011100", 4096), ("011101", 4160), ("011110", 4352), ("011111", 4416),
        ("101010", 4608), ("101011", 4672), ("101100", 8192), ("101101", 8256), ("101110", 8704), ("101111", 8768),
    ];
    for (bits, length) in sheet {
        assert_eq!(line_length_of(i64::from_str_radix(bits, 2).unwrap()), Some(length));
    }
}

#[test]
fn limits() {
    assert_eq!(last_refusal("F0000 33FFF"), 0);
    assert_eq!(last_refusal("F0000 34000"), 9);
    assert_eq!(last_refusal("F0000 E0006 D4000 D4000 D4000 D4000 D0000"), 0);
    assert_eq!(last_refusal("F0000 E0006 D4001"), 9);
    assert_eq!(last_refusal("F0000 E0006 D4000 D4000 D4000 D4001"), 9);
    assert_eq!(last_refusal("F0000 E0006 D4000 D4000 D4000 D4000 D0001"), 9);
    assert_eq!(last_refusal("F0000 90000 D3FFF D3FFF D3FFF D3FFF"), 0);
    assert_eq!(last_refusal("F0000 90000 D3FFF D3FFF D3FFF D4000"), 9);
    let tall = Picture::cleared(256 * 16385);
    let rows = |line_length, layout| tall.rows(&Registers::initial(line_length, layout));
    assert_eq!((rows(256, Layout::Rows), rows(512, Layout::Rows)), (16384, 8192));
    assert_eq!((rows(256, Layout::Tiles), rows(384, Layout::Tiles)), (16384, 10920));
}

#[test]
fn refusal_order() {
    assert_eq!(last_refusal("F0000 42328"), 10);
    assert_eq!(last_refusal("F0000 E0006 E000D"), 6);
    assert_eq!(last_refusal("F0000 E0006 E0007"), 6);
    assert_eq!(last_refusal("F0000 E0006 C0000"), 4);
    assert_eq!(last_refusal("F0000 E0006 42328"), 6);
    assert_eq!(last_refusal("F0000 E0102"), 8);
    assert_eq!(last_refusal("F0000 DFFFF"), 7);
    assert_eq!(last_refusal("F0000 40000"), 10);
    assert_eq!(last_refusal("F0000 F0008"), 9);
    assert_eq!(last_refusal("70000"), 3);
    assert_eq!(last_refusal("F0008"), 9);
    assert_eq!(stopped(""), (0, 0));
}

#[test]
fn whole_example() {
    let words = "F0000 E0004 D0006 10064 2000A 30000 50000 100C8 30000 40002 1012C 30002 40000";
    let bytes = packed(words);
    assert_eq!(bytes.len(), 33);
    let expected = "words 13 refusal 0 passed 3\n0 0 100 10\n1 0 150 10\n0 1 200 10\n";
    assert_eq!(drawing(&bytes), expected);
}

/// Both lines of the sheet's example are drawn (document 02, [5]), each bend
/// once ([2]).
#[test]
fn sheet_lines() {
    let points = [(0, 0), (1, 0), (2, 0), (3, 0), (4, 0), (4, 1), (0, 2), (1, 2), (2, 2), (3, 2), (4, 2)];
    let second = [(0, 4), (4, 4), (1, 5), (3, 5), (2, 6)];
    let places: String = points.iter().chain(&second).map(|(x, y)| format!("{} {} 1 65535\n", x, y)).collect();
    assert_eq!(drawing(&packed(SHEET_LINES)), format!("words 23 refusal 0 passed 16\n{}", places));
}

/// A line starts visible; INIT's INV 1, or that of another line, is gone.
#[test]
fn lines_start_visible() {
    let passed = |words: &str| run_words(words).0.passed;
    assert_eq!(passed("F0000 80000 B0004"), 5);
    assert_eq!(passed("F0000 E000C D0030 80000 B0004 B0008"), 9);
    assert_eq!(passed("F0000 E0001 D0002 80000 40004"), 5);
    assert_eq!(passed("F0000 80000 E000C D0020 B0004 E000C D0000 B0008"), 5);
}

#[test]
fn lengths_of_the_drawing_program() {
    assert_eq!(drawing(&[]), "words 0 refusal 0 passed 0\n");
    assert_eq!(drawing(&[0xF0; 8193]), "too long\n");
    assert_eq!(drawing(&[0xF0; 8192]), "words 0 refusal 11 passed 0\n");
    assert_eq!(drawing(&[0xF0, 0, 1]), "words 0 refusal 12 passed 0\n");
    assert_eq!(drawing(&[0; 8190]), "words 0 refusal 3 passed 0\n");
}

/// The lines of "Easy to get wrong".
#[test]
fn easy_to_get_wrong() {
    let passed = |words: &str| run_words(words).0.passed;
    // Gouraud triangles and mode 2 lines ignore the transparency pattern.
    assert_eq!(passed("F0000 E0005 D0000 50000 40002 30002 40000"), 3);
    assert_eq!(passed("F0000 E0005 D0000 E0000 D0001 50000 40002 30002 40000"), 0);
    assert_eq!(passed("F0000 E0005 D0000 E0001 D0002 80000 E000C D0000 40004"), 5);
    assert_eq!(passed("F0000 E0005 D0000 80000 E000C D0000 B0004"), 0);
    // Both enables are off after INIT.
    let (outcome, picture) = run_words("F0000 10009 20003 50000 40002 30002 40000");
    assert_eq!(outcome.passed, 3);
    assert_eq!(picture, Picture::cleared(8192));
    // The pattern moves on at pixels that are not stored.
    let (_, picture) = run_words("F0000 E0004 D0006 E0009 D0F00 D0000 E0006 D0005 D2000 D2000 D0000 D0000 80000 E000C D0000 B0008");
    assert_eq!(picture.i[..9], [0, 0, 0, 0, 0, 1, 1, 1, 0]);
}

/// Document 02, [2]: the pattern runs on through the bends of a line.
#[test]
fn dashes() {
    let row = |words: &str| {
        let (_, picture) = run_words(&format!("F0000 E0004 D0006 E0009 DF000 D0000 80000 E000C D0000 {}", words));
        picture.i[..10].to_vec()
    };
    // bits 31 to 28 are set: steps 0 to 3 since LX
    assert_eq!(row("B0002 B0009"), [1, 1, 1, 1, 0, 0, 0, 0, 0, 0]);
    // an invisible segment advances, and so does one of mode 2
    assert_eq!(row("E000C D0020 B0002 E000C D0000 B0009"), [0, 0, 1, 1, 0, 0, 0, 0, 0, 0]);
    assert_eq!(row("E0001 D0002 40002 E0001 D0001 B0009"), [0, 0, 1, 1, 0, 0, 0, 0, 0, 0]);
    // another pattern inside a line: the position goes on
    assert_eq!(row("B0002 E0009 D1FFF DFFFF B0009"), [1; 10]);
    // a bend is counted once
    let passed = |words: &str| run_words(words).0.passed;
    assert_eq!(passed("F0000 80000 E000C D0000 B0004 B0008"), 9);
    // after a segment of no length too, which offers nothing itself
    assert_eq!(passed("F0000 80000 E000C D0000 B0004 B0004 B0008"), 9);
    // and after one that is visible but offers nothing
    assert_eq!(passed("F0000 E0009 D0000 D0000 80000 E000C D0000 B0004 E0009 DFFFF DFFFF B0008"), 4);
    // but not after an invisible segment or one of mode 2
    assert_eq!(passed("F0000 80000 E000C D0020 B0004 E000C D0000 B0008"), 5);
    assert_eq!(passed("F0000 E0001 D0002 80000 E000C D0000 40004 E0001 D0001 B0008"), 10);
    assert_eq!(passed("F0000 80000 E000C D0000 B0004 E0001 D0002 40008"), 10);
}

/// Document 02's [10]: a mode 2 line passes at equal depth, a triangle does
/// not, and both go by strictly less and greater as they did.
#[test]
fn edges_over_faces() {
    let begin = "F0000 E0004 D0006 E0003 D0040 E0001 D0002 ";
    let face = "10001 20009 30000 50000 40008 30008 40000 ";
    let line = |i: i64, z: i64| format!("1{:04X} 2{:04X} 30000 80000 E000C D0010 40003 ", i, z);
    let left = |words: String| run_words(&(begin.to_string() + &words)).1.i[..5].to_vec();
    // the line shows over the face, before and behind it
    assert_eq!(left(face.to_string() + &line(2, 9)), [2, 2, 2, 2, 1]);
    assert_eq!(left(line(2, 9) + face), [2, 2, 2, 2, 1]);
    assert_eq!(left(face.to_string() + &line(2, 8)), [2, 2, 2, 2, 1]);
    assert_eq!(left(face.to_string() + &line(2, 10)), [1, 1, 1, 1, 1]);
    // of two lines the last shows, and at the starting depth any
    assert_eq!(left(line(2, 9) + &line(3, 9)), [3, 3, 3, 3, 0]);
    assert_eq!(left(line(2, 65535)), [2, 2, 2, 2, 0]);
    // of two faces the first, and at the starting depth none
    assert_eq!(left(face.to_string() + &face.replace("10001", "10004")), [1, 1, 1, 1, 1]);
    assert_eq!(left(face.replace("20009", "2FFFF")), [0, 0, 0, 0, 0]);
    // a joint of mode 2 passes twice, with the depth test off too
    let passed = |words: &str| run_words(words).0.passed;
    assert_eq!(passed(&(begin.to_string() + "80000 E000C D0000 40004 40008")), 10);
    assert_eq!(passed("F0000 E0001 D0002 80000 E000C D0000 40004 40008"), 10);
}

#[test]
fn constant_triangles_take_the_completing_vertex() {
    let figure = Figure::Triangle {
        corners: [
            Vertex { x: 0, y: 0, i: 1, z: 2 },
            Vertex { x: 9, y: 0, i: 3, z: 4 },
            Vertex { x: 0, y: 9, i: 5, z: 6 },
        ],
        shading: CONSTANT,
    };
    let numbers = figure.at(&Registers::initial(256, Layout::Rows), 1, 1).unwrap();
    assert_eq!((numbers.i, numbers.z), (5, Some(6)));
}

/// Document 02, [7]: only constant triangles deeper than the section depth
/// are cut, with the depth test on or off.
#[test]
fn sections() {
    let passed = |words: &str| run_words(words).0.passed;
    let constant = "F0000 E0000 D0001 E0003 D0020 E0007 D0005 ";
    let triangle = "50000 40002 30002 40000";
    assert_eq!(passed(&format!("{}20005 {}", constant, triangle)), 3);
    assert_eq!(passed(&format!("{}20006 {}", constant, triangle)), 0);
    // the completing vertex's depth counts
    assert_eq!(passed(&format!("{}20006 50000 40002 30002 20005 40000", constant)), 3);
    assert_eq!(passed(&format!("{}50000 40002 30002 20006 40000", constant)), 0);
    // sectioning off, Gouraud triangles, lines
    assert_eq!(passed(&format!("{}E0003 D0000 20006 {}", constant, triangle)), 3);
    assert_eq!(passed(&format!("{}E0000 D0000 20006 {}", constant, triangle)), 3);
    assert_eq!(passed(&format!("{}20006 80000 E000C D0000 B0004", constant)), 5);
    // INIT sets the section depth to FFFF and switches sectioning off
    assert_eq!(passed(&format!("F0000 E0000 D0001 E0003 D0020 2FFFF {}", triangle)), 3);
    assert_eq!(passed(&format!("{}F0000 E0000 D0001 20006 {}", constant, triangle)), 3);
    assert_eq!(last_refusal("F0000 E0003 D0010"), 9);
}

/// A refused parameter stays awaited, and those before it stay parked.
#[test]
fn refused_words_change_nothing() {
    let mut registers = Registers::reset();
    for word in unpack(&packed("F0000 E0006 D0001 D0002")).unwrap() {
        registers = step(&registers, word).ok().unwrap().registers;
    }
    for word in unpack(&packed("D4001 F0008 10000 E0002 C0000")).unwrap() {
        assert!(step(&registers, word).is_err());
    }
    for word in unpack(&packed("D0003 D0004 D0000")).unwrap() {
        registers = step(&registers, word).ok().unwrap().registers;
    }
    let window = registers.window;
    assert_eq!((window.left, window.top, window.right, window.bottom), (1, 2, 3, 4));
    assert_eq!(registers.awaiting, None);
}
