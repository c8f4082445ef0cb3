//! Edge cases by name, written as hexadecimal words.

use crate::hexwords::pack_text;

/// A named stream.
pub struct Edge {
    pub name: String,
    pub bytes: Vec<u8>,
}

/// INIT with line length 256 and both enables.
const BEGIN: &str = "F0000 E0004 D0006 ";
/// The depth test on.
const TEST: &str = "E0003 D0040 ";

/// Constant triangles, sectioning on without the depth test, section depth 9.
const SECTION: &str = "E0000 D0001 E0003 D0020 E0007 D0009 ";

/// Words between blanks, packed.
pub fn packed(words: &str) -> Vec<u8> {
    let lines = words.split_whitespace().collect::<Vec<_>>().join("\n");
    pack_text(lines.as_bytes()).expect("edge cases are written in hexadecimal")
}

pub fn edges() -> Vec<Edge> {
    let mut edges = Vec::new();
    edges.extend(lengths());
    edges.extend(single_words());
    edges.extend(inits());
    edges.extend(bits());
    edges.extend(coordinates());
    edges.extend(windows());
    edges.extend(segments());
    edges.extend(patterns());
    edges.extend(by_text(&TRIANGLES, BEGIN));
    edges.extend(by_text(&LINES, BEGIN));
    edges.extend(by_text(&DASHES, BEGIN));
    edges.extend(by_text(&DEPTHS, &format!("{}{}", BEGIN, TEST)));
    edges.extend(by_text(&SECTIONS, &format!("{}{}", BEGIN, SECTION)));
    edges.extend(by_text(&TIES, &format!("{}{}", BEGIN, TEST)));
    edges.extend(by_text(&ORDERS, BEGIN));
    edges.extend(by_text(&PICTURES, BEGIN));
    edges.extend(images());
    edges.extend(by_text(&WHOLE, ""));
    edges
}

fn edge(name: String, words: &str) -> Edge {
    Edge { name, bytes: packed(words) }
}

fn by_text(cases: &[(&str, &str)], before: &str) -> Vec<Edge> {
    cases.iter().map(|(name, words)| edge(name.to_string(), &format!("{}{}", before, words))).collect()
}

/// A word from its command and data.
fn word(command: i64, data: i64) -> String {
    format!("{:X}{:04X} ", command, data)
}

/// Y and then X, T1X, T2X, LX or PX.
fn point(command: i64, x: i64, y: i64) -> String {
    word(3, y) + &word(command, x)
}

/// Every length around the limits, all bytes as in a long drawing.
fn lengths() -> Vec<Edge> {
    let mut drawing = packed(&format!("{}{}", BEGIN, "1000F 50000 40009 30009 40000 "));
    while drawing.len() < 20000 {
        let x = drawing.len() as i64 % 251;
        // A triangle every hundred bytes, and a new intensity otherwise.
        let command = if drawing.len() % 100 == 0 { 4 } else { 1 };
        drawing.extend(packed(&(word(3, x % 32) + &word(command, x))));
    }
    let lengths = [0, 1, 2, 3, 4, 5, 6, 7, 8, 9, 10, 8187, 8188, 8189, 8190, 8191, 8192, 8193, 8195, 20000];
    lengths.iter().map(|length| Edge { name: format!("length-{}", length), bytes: drawing[..*length].to_vec() }).collect()
}

/// Each command from reset, after INIT and while a parameter is awaited;
/// each subcommand number with and without a parameter awaited.
fn single_words() -> Vec<Edge> {
    let mut edges = Vec::new();
    for command in 0..16 {
        let given = word(command, 0);
        edges.push(edge(format!("command-{:X}-from-reset", command), &given));
        edges.push(edge(format!("command-{:X}-after-init", command), &format!("{}{}", BEGIN, given)));
        edges.push(edge(format!("command-{:X}-awaited", command), &format!("{}E0006 D0001 {}", BEGIN, given)));
        let large = word(command, 0xFFFF);
        edges.push(edge(format!("command-{:X}-large-awaited", command), &format!("{}E0006 {}", BEGIN, large)));
    }
    for number in [0, 1, 2, 3, 4, 5, 6, 7, 8, 9, 10, 11, 12, 13, 14, 15, 16, 0x0102, 0x1000, 0xFFFF] {
        let given = word(0xE, number);
        edges.push(edge(format!("aux-{}", number), &format!("{}{}", BEGIN, given)));
        edges.push(edge(format!("aux-{}-awaited", number), &format!("{}E0008 D0001 {}", BEGIN, given)));
        let five = word(0xD, 0).repeat(6);
        edges.push(edge(format!("aux-{}-parameters", number), &format!("{}{}{}", BEGIN, given, five)));
    }
    edges
}

/// All line codes with two crossing lines; chips, unit and page codes.
fn inits() -> Vec<Edge> {
    let mut edges = Vec::new();
    let cross = "30001 80000 E000C D0000 B3FFF 30000 80002 E000C D0000 33FFF B0002 ";
    for code in 0..64 {
        let words = format!("{}E0004 D0006 {}", word(0xF, code * 256), cross);
        edges.push(edge(format!("line-code-{}", code), &words));
        let later = format!("{}{}{}{}", BEGIN, cross, word(0xF, code * 256 + 0xC000), "30003 50000");
        edges.push(edge(format!("line-code-{}-later", code), &later));
    }
    for low in 0..16 {
        edges.push(edge(format!("page-code-{}", low), &word(0xF, low)));
        edges.push(edge(format!("chips-and-unit-{}", low), &word(0xF, low * 16)));
    }
    edges
}

/// Each single bit of HCONTROL, ZCONTROL, LSTATUS, PMODE and LMODE, with a
/// figure after it.
fn bits() -> Vec<Edge> {
    let mut edges = Vec::new();
    let triangle = "10007 20009 30000 50000 40006 30006 40000 ";
    let line = "30009 80000 E000C D0000 30009 B0009 ";
    for place in 0..16 {
        let data = word(0xD, 1 << place);
        edges.push(edge(format!("hcontrol-bit-{}", place), &format!("F0000 E0004 {}{}{}", data, triangle, line)));
        edges.push(edge(format!("zcontrol-bit-{}", place), &format!("{}E0003 {}{}", BEGIN, data, triangle)));
        let status = format!("{}80000 E000C {}{}{}", BEGIN, data, "B0009 ", "30002 B0000 ");
        edges.push(edge(format!("lstatus-bit-{}", place), &status));
    }
    for value in 0..4 {
        let data = word(0xD, value);
        edges.push(edge(format!("pmode-{}", value), &format!("{}E0005 D1234 E0000 {}{}", BEGIN, data, triangle)));
        edges.push(edge(format!("lmode-{}", value), &format!("{}E0001 {}{}", BEGIN, data, line)));
    }
    edges
}

/// The limits of each coordinate.
fn coordinates() -> Vec<Edge> {
    let mut edges = Vec::new();
    for (name, command, before) in [
        ("y", 3, ""),
        ("x", 4, "50000 30001 40000 "),
        ("t1x", 5, ""),
        ("t2x", 6, ""),
        ("lx", 8, ""),
        ("px", 0xB, "10001 80000 E000C D0000 "),
        ("x-no-figure", 4, ""),
        ("px-no-figure", 0xB, ""),
        ("x-open-line-mode-1", 4, "80000 "),
        ("px-open-strip", 0xB, "50000 "),
    ] {
        for data in [0, 8192, 9000, 16382, 16383, 16384, 0x8000, 65535] {
            let words = format!("{}10005 {}{}", BEGIN, before, word(command, data));
            edges.push(edge(format!("{}-{}", name, data), &words));
        }
    }
    edges
}

/// Limits of each border, empty and small windows over one triangle.
fn windows() -> Vec<Edge> {
    let mut edges = Vec::new();
    let triangle = "10007 30000 50000 400FF 3001F 40000 ";
    for position in 0..5 {
        for value in [0, 1, 8193, 16383, 16384, 16385, 65535] {
            let mut borders = [0, 16384, 16384, 0, 0];
            borders[position] = value;
            let name = format!("window-{}-{}", ["left", "top", "right", "bottom", "last"][position], value);
            edges.push(window_edge(name, borders, triangle));
        }
    }
    for (name, borders) in [
        ("window-empty-across", [9, 31, 8, 0, 0]),
        ("window-empty-up", [0, 8, 255, 9, 0]),
        ("window-one-pixel", [9, 9, 9, 9, 0]),
        ("window-column", [9, 16384, 9, 0, 0]),
        ("window-row", [0, 9, 16384, 9, 0]),
        ("window-inside", [5, 20, 100, 3, 0]),
    ] {
        edges.push(window_edge(name.to_string(), borders, triangle));
    }
    edges
}

fn window_edge(name: String, borders: [i64; 5], figure: &str) -> Edge {
    let parameters: String = borders.iter().map(|border| word(0xD, *border)).collect();
    edge(name, &format!("{}E0006 {}{}", BEGIN, parameters, figure))
}

/// Segments in all directions, in each line mode, there and back.
fn segments() -> Vec<Edge> {
    let mut edges = Vec::new();
    let around = [(0, 0), (7, 0), (7, 3), (7, 7), (3, 7), (0, 7), (-3, 7), (-7, 7), (-7, 3), (-7, 0), (-7, -3)];
    let more = [(-7, -7), (-3, -7), (0, -7), (3, -7), (7, -7), (7, -3), (8, 2), (8, 6), (10, 5), (2, 1), (40, 9)];
    for mode in 0..3 {
        for (dx, dy) in around.iter().chain(more.iter()) {
            edges.push(segment_edge(mode, *dx, *dy));
        }
    }
    edges
}

fn segment_edge(mode: i64, dx: i64, dy: i64) -> Edge {
    let next = if mode == 2 { 4 } else { 0xB };
    let setting = format!("E0001 {}E0008 D0005 D0006 E0009 DCA00 DCA03 ", word(0xD, mode));
    let out = format!("10000 20000 {}E000C D0000 ", point(8, 20, 15));
    let there = format!("1000A 20065 {}", point(next, 20 + dx, 15 + dy));
    let back = format!("10003 20000 {}", point(next, 20, 15));
    edge(format!("segment-mode-{}-by-{}-{}", mode, dx, dy), &format!("{}{}{}{}{}", BEGIN, setting, out, there, back))
}

/// Each bit of the transparency pattern, over each kind of figure.
fn patterns() -> Vec<Edge> {
    let mut edges = Vec::new();
    let triangle = "10007 30000 50000 40009 30009 40000 ";
    let line = "3000A 80000 E000C D0010 ";
    for place in 0..16 {
        let pattern = format!("E0005 {}", word(0xD, 1 << place));
        edges.push(edge(
            format!("transparency-bit-{}", place),
            &format!("{}{}E0000 D0001 {}{}B0013 ", BEGIN, pattern, triangle, line),
        ));
    }
    edges.push(edge("transparency-0-gouraud".into(), &format!("{}E0005 D0000 {}", BEGIN, triangle)));
    edges.push(edge("transparency-0-constant".into(), &format!("{}E0005 D0000 E0000 D0001 {}", BEGIN, triangle)));
    edges.push(edge("transparency-0-line-1".into(), &format!("{}E0005 D0000 {}B0013 ", BEGIN, line)));
    edges.push(edge("transparency-0-line-2".into(), &format!("{}10009 E0005 D0000 E0001 D0002 {}40013 ", BEGIN, line)));
    edges
}

/// Triangles, after BEGIN.
const TRIANGLES: [(&str, &str); 22] = [
    ("triangle-small", "10001 30000 50000 40002 30002 40000"),
    ("triangle-small-turned", "10001 30000 50000 30002 40000 30000 40002"),
    ("triangle-upper", "10001 30000 50002 30002 40002 40000"),
    ("triangle-upper-turned", "10001 30000 50002 30002 40000 30002 40002"),
    ("triangle-on-one-line", "10001 30000 50000 30001 40001 30002 40002"),
    ("triangle-one-point", "10001 30003 50003 40003 40003"),
    ("triangle-two-points-alike", "10001 30003 50003 40003 30008 40009"),
    ("triangle-level", "10001 30003 50003 40009 40004"),
    ("triangle-gouraud-rounding", "1000A 20003 30000 50000 10005 20000 40007 10000 2FFFF 30005 40003"),
    ("triangle-gouraud-extremes", "1FFFF 2FFFF 30000 50000 43FFF 33FFF 40000"),
    ("triangle-gouraud-slope", "10000 20000 30000 50000 1FFFF 2FFFF 43FFF 10000 20000 33FFF 40000"),
    ("triangle-constant-completing", "E0000 D0001 10001 20001 30000 50000 10002 20002 40009 10003 20003 30009 40000"),
    ("strip-square", "10001 30000 50000 4000A 3000A 40000 4000A"),
    ("fan-square", "10001 30000 60000 4000A 3000A 4000A 40000"),
    ("strip-of-five", "10001 30000 50000 20005 30009 40003 10009 30000 40006 30009 40009 10011 30000 4000C"),
    ("fan-of-six", "10001 3000A 6000A 10005 30000 4000A 30003 40013 10007 30010 40013 20007 30014 4000A 30010 40001"),
    ("fan-after-flat", "10001 30000 60000 30001 40001 30002 40002 10005 30002 40008 30009 40001"),
    ("strip-after-flat", "10001 30000 50000 30001 40001 30002 40002 10005 30002 40008 30009 40001"),
    ("strip-mode-changes", "10009 30000 50000 40008 E0000 D0001 10004 30008 40000 E0000 D0000 10002 40008 E0001 D0000 30010 40000"),
    ("triangle-planes", "E000A D00F0 1FFFF 30000 50000 40008 30008 40000 E000A D0F0F 1A5A5 30000 50000 40008 30008 40000"),
    ("triangle-planes-none", "E000A D0000 1FFFF 30000 50000 40008 30008 40000"),
    ("triangle-past-the-border", "10003 30000 500F0 30030 40120 30010 400F0 33FFF 43FFF"),
];

/// Lines, after BEGIN.
const LINES: [(&str, &str); 21] = [
    ("line-example", "30000 80000 E000C D0010 30001 B0002"),
    ("line-example-back", "30001 80002 E000C D0010 30000 B0000"),
    ("line-mode-2-example", "E0001 D0002 10000 20000 80000 E000C D0010 1000A 2000A 40003"),
    ("line-mode-2-downward-numbers", "E0001 D0002 10005 20005 80000 E000C D0010 10000 20000 40002"),
    ("line-mode-2-point", "E0001 D0002 10005 20005 80002 E000C D0010 10008 20009 40002"),
    ("line-mode-0-point", "E0001 D0000 E0008 D0003 D0004 80002 E000C D0010 10008 B0002"),
    ("line-mode-0-point-clear", "E0001 D0000 E0008 D0003 D0004 E0009 D7FFF DFFFF 80002 E000C D0010 B0002"),
    ("line-mode-1-point-clear", "E0009 D7FFF DFFFF 80002 E000C D0010 B0002"),
    ("line-pattern-mode-0", "E0001 D0000 E0008 D0003 D0004 E0009 D8001 D0001 80000 E000C D0010 30005 B0064"),
    ("line-pattern-mode-1", "E0008 D0003 D0004 E0009 D8001 D0001 80000 E000C D0010 30005 B0064"),
    ("line-pattern-runs-on", "E0009 D8000 D0000 80000 E000C D0000 B0005 B000A B000F"),
    ("line-pattern-past-32", "E0009 DF0F0 D0001 80000 E000C D0000 B0064"),
    ("line-background-0", "80000 E000C D0000 B0008 E0001 D0000 E0008 D0007 D0000 E0009 DAAAA DAAAA 80000 E000C D0000 B0008"),
    ("line-joint-once", "80000 E000C D0000 B0008 30008 B0008 30000 B0000"),
    ("line-modes-0-and-1-keep-depth", "E0003 D0040 20005 80000 E000C D0000 B0008 E0001 D0000 B0000"),
    ("line-mode-2-depth-without-test", "E0001 D0002 20005 10003 80000 E000C D0000 20009 40008 20001 40000"),
    ("line-across-all", "10005 E0001 D0002 80000 E000C D0000 33FFF 43FFF 30000 43FFF 33FFF 40000"),
    ("line-mode-changes", "10003 80000 E000C D0000 B0008 E0001 D0002 10009 30008 40008 E0001 D0000 E0008 D0002 D0001 B0000"),
    ("line-px-vertex-keeps-numbers", "10003 20003 80000 E000C D0000 10007 20007 B0008 E0001 D0002 10003 20003 30009 40008"),
    ("line-mode-2-ignores-pattern", "E0001 D0002 E0009 D0000 D0000 E0005 D0000 10004 80000 E000C D0010 40008"),
    ("line-planes", "E000A D000C E0008 DFFFF D0003 E0001 D0000 E0009 DAAAA D5555 80000 E000C D0010 B0040"),
];

/// Lines of several segments, after BEGIN: how the pattern runs on.
const DASHES: [(&str, &str); 18] = [
    ("dashes-mode-1-through-bends", "E0009 DF0CC DAAAA 80000 E000C D0000 B0005 30003 B0007 30009 B0009 B0020"),
    ("dashes-mode-0-through-bends", "E0001 D0000 E0008 D0003 D0004 E0009 DF0CC DAAAA 80000 E000C D0000 B0005 30003 B0007 30009 B0009 B0020"),
    ("dashes-past-32-steps", "E0009 D8000 D0001 80000 E000C D0000 B0021 B0042 B0046 30020 B0046"),
    ("dashes-modes-0-and-1-joined", "E0008 D0003 D0004 E0009 DAAAA DAAAA 80000 E000C D0000 B0004 E0001 D0000 B0008 E0001 D0001 B000C"),
    ("dashes-invisible-advances", "E0009 DF000 D0000 80000 E000C D0020 B0002 E000C D0000 B0009"),
    ("dashes-mode-2-advances", "E0009 DF000 D0000 80000 E000C D0000 E0001 D0002 40002 E0001 D0001 B0009"),
    ("dashes-invisible-mode-2-advances", "E0009 DF000 D0000 80000 E000C D0020 E0001 D0002 40002 E0001 D0001 E000C D0000 B0009"),
    ("dashes-after-invisible-have-first-point", "80000 E000C D0000 B0004 E000C D0020 30004 B0004 E000C D0000 30008 B0004"),
    ("dashes-after-mode-2-have-first-point", "80000 E000C D0000 E0001 D0002 10007 40004 E0001 D0001 B0008"),
    ("dashes-then-mode-2-has-first-point", "80000 E000C D0000 B0004 E0001 D0002 10007 40008"),
    ("dashes-no-length-joined-offers-nothing", "E0001 D0000 E0008 D0003 D0004 80000 E000C D0000 B0004 E0008 D0005 D0006 B0004"),
    ("dashes-no-length-still-joins", "80000 E000C D0000 B0004 B0004 B0008"),
    ("dashes-no-length-first", "E0009 D8000 D0000 80004 E000C D0000 B0004 B0008"),
    ("dashes-no-length-after-invisible", "E0009 D1000 D0000 80000 E000C D0020 B0003 E000C D0000 B0003"),
    ("dashes-bend-not-offered-is-left-out", "E0009 D0000 D0000 80000 E000C D0000 B0004 E0009 DFFFF DFFFF B0008"),
    ("dashes-other-pattern-inside", "E0009 DF000 D0000 80000 E000C D0000 B0002 E0009 D1FFF D0000 B0020"),
    ("dashes-line-begins-again", "E0009 DF000 D0000 80000 E000C D0000 B0006 30002 80000 E000C D0000 B0009"),
    ("dashes-end-then-line-begins-again", "E0009 DF000 D0000 80000 E000C D0010 B0006 30002 80000 E000C D0000 B0009"),
];

/// Depth cases, after BEGIN and TEST.
const DEPTHS: [(&str, &str); 10] = [
    ("depth-less", "10001 20009 50000 40008 30008 40000 10002 20008 30000 50000 40008 30008 40000"),
    ("depth-equal-face-stays", "10001 20009 50000 40008 30008 40000 10002 20009 30000 50000 40008 30008 40000"),
    ("depth-greater", "10001 20009 50000 40008 30008 40000 10002 2000A 30000 50000 40008 30008 40000"),
    ("depth-65535-face-never-passes", "10001 2FFFF 50000 40008 30008 40000"),
    ("depth-test-with-z-off", "E0004 D0004 10001 20009 50000 40008 30008 40000 10002 20009 50000 40008 30000 40000"),
    ("depth-test-with-i-off", "E0004 D0002 10001 20009 50000 40008 30008 40000 E0004 D0006 10002 20009 50000 40008 30000 40000"),
    ("depth-constant-tested", "E0000 D0001 10001 20009 50000 40008 30008 40000 10002 20009 30004 50000 40008 30000 40004"),
    ("depth-crossing", "10001 20000 50000 20064 40020 20000 3001F 40000 10002 20064 30000 50000 20000 40020 20064 3001F 40000"),
    ("depth-line-mode-2-equal-joint", "E0001 D0002 10001 20009 80000 E000C D0000 40008 30008 40008 30000 40000"),
    ("depth-switched-off", "10001 20009 50000 40008 30008 40000 E0003 D0000 10002 2000A 30000 50000 40008 30008 40000"),
];

/// Lines of mode 2 at the depth of what stands there, after BEGIN and TEST
/// (document 02, [10]).
const TIES: [(&str, &str); 11] = [
    ("tie-line-over-face", "10001 20009 50000 40008 30008 40000 E0001 D0002 10002 30000 80000 E000C D0000 40008"),
    ("tie-line-over-constant-face", "E0000 D0001 10001 20009 50000 40008 30008 40000 E0001 D0002 10002 30000 80000 E000C D0000 40008"),
    ("tie-line-then-face", "E0001 D0002 10002 20009 80000 E000C D0000 40008 10001 50000 40008 30008 40000"),
    ("tie-last-of-two-lines", "E0001 D0002 10001 20009 80000 E000C D0000 40008 10002 80004 E000C D0000 4000C"),
    ("tie-no-line-behind-face", "10001 20009 50000 40008 30008 40000 E0001 D0002 10002 2000A 30000 80000 E000C D0000 4000A"),
    ("tie-line-at-65535", "E0001 D0002 10002 2FFFF 80000 E000C D0000 40008"),
    ("tie-line-at-65535-z-off", "E0004 D0004 E0001 D0002 10002 2FFFF 80000 E000C D0000 40008 10003 40000"),
    ("tie-line-cut-by-window", "10001 20009 50000 40008 30008 40000 E0006 D0003 D0008 D0008 D0000 D0000 E0001 D0002 10002 30002 80000 E000C D0000 40008"),
    ("tie-line-past-the-border", "10001 20009 500F0 400FF 3001F 400F0 E0001 D0002 10002 30004 800F0 E000C D0000 40120"),
    ("tie-outline-of-slope", "10001 20000 50000 20064 40010 20000 30010 40000 E0001 D0002 10002 20000 30000 80000 E000C D0000 20064 40010 20000 30010 40000 30000 40000"),
    ("tie-line-planes", "10FF0 20009 50000 40008 30008 40000 E000A D000F E0001 D0002 1FFFF 30000 80000 E000C D0000 40008"),
];

/// Orders of openings, points and status, after BEGIN.
const ORDERS: [(&str, &str); 22] = [
    ("order-x-without-figure", "40005"),
    ("order-px-without-figure", "B0005"),
    ("order-x-on-mode-1-line", "80000 E000C D0000 40005"),
    ("order-px-on-mode-2-line", "E0001 D0002 80000 E000C D0000 B0005"),
    ("order-px-on-strip", "50000 40005 B0006"),
    ("order-px-on-fan", "60000 40005 B0006"),
    ("order-line-closed", "80000 E000C D0010 B0005 B0006"),
    ("order-line-closed-unseen", "80000 E000C D0030 B0005 B0006"),
    ("order-line-starts-visible", "80000 B0005 30005 B0009"),
    ("order-line-starts-visible-mode-2", "E0001 D0002 10003 20003 80000 10009 20009 30005 40008"),
    ("order-line-unseen-moves-on", "80000 E000C D0020 B0005 E000C D0000 30005 B0009"),
    ("order-status-before-line", "E000C D0030 80000 B0005 B0006 E000C D0000 B0009"),
    ("order-status-of-last-line", "80000 E000C D0030 B0005 80000 B0006 B0007"),
    ("order-end-taken-back", "80000 E000C D0010 E000C D0000 B0005 B0006"),
    ("order-end-on-strip", "10001 50000 E000C D0030 40009 30009 40000 40009"),
    ("order-strip-abandoned", "10001 50000 40009 60000 30009 40009 40000"),
    ("order-line-abandoned", "10001 80000 E000C D0000 50005 40009 30009 40000"),
    ("order-line-abandoned-by-line", "10001 80000 E000C D0020 80005 B0009 E000C D0000 B000F"),
    ("order-triangles-keep-status", "10001 80000 E000C D0010 50000 40009 30009 40000 80010 B0014 B0018"),
    ("order-wrong-pairing-then-stops", "80000 E000C D0000 B0005 E0001 D0002 B0006"),
    ("order-settings-keep-figure", "10001 50000 40009 E0006 D0000 D0008 D0008 D0000 D0000 E0008 D0001 D0002 30009 40000"),
    ("order-init-closes-figure", "50000 40009 F0000 30009 40000"),
];

/// The sheet's example "2-D Line Drawing", with numbers for its points and,
/// where it leaves words out, both enables. Its second line sends no LSTATUS.
pub const SHEET_LINES: &str = "F0000 E0001 D0000 E0004 D0006 \
    30000 80000 E000C D0000 30000 B0004 30002 B0004 E000C D0010 30002 B0000 \
    30004 80000 30006 B0002 30004 B0004";

/// Sections, after BEGIN and SECTION.
const SECTIONS: [(&str, &str); 16] = [
    ("section-nearer-stays", "10001 20008 50000 40008 30008 40000"),
    ("section-equal-stays", "10001 20009 50000 40008 30008 40000"),
    ("section-deeper-is-cut", "10001 2000A 50000 40008 30008 40000"),
    ("section-deepest-is-cut", "10001 2FFFF 50000 40008 30008 40000"),
    ("section-only-completing-vertex-nearer", "10001 2000A 50000 40008 20009 30008 40000"),
    ("section-only-completing-vertex-deeper", "10001 20009 50000 40008 2000A 30008 40000"),
    ("section-gouraud-stays", "E0000 D0000 10001 2000A 50000 40008 30008 40000"),
    ("section-gouraud-since-opening-stays", "10001 2000A 50000 40008 E0000 D0000 30008 40000"),
    ("section-lines-stay", "2000A 80000 E000C D0000 B0008 E0001 D0000 30004 B0000 E0001 D0002 10005 30008 40008"),
    ("section-with-depth-test", "E0003 D0060 10001 2000A 50000 40008 30008 40000 10002 20009 30000 50000 40004 30004 40000"),
    ("section-off", "E0003 D0040 10001 2000A 50000 40008 30008 40000"),
    ("section-0-keeps-depth-0-alone", "E0007 D0000 10001 20000 50000 40008 30008 40000 10002 20001 40008"),
    ("section-65535-cuts-nothing", "E0007 DFFFF 10001 2FFFF 50000 40008 30008 40000"),
    ("section-strip-goes-on", "10001 2000A 30000 50000 40008 30008 40000 10002 20001 40008 2000A 30010 40000"),
    ("section-fan-goes-on", "10001 2000A 30000 60000 40008 30008 40008 10002 20001 40000"),
    ("section-after-init", "10001 2000A 30000 50000 40008 30008 40000 F0000 E0004 D0006 E0000 D0001 10001 2000A 50000 40008 30008 40000"),
];

/// Pictures (document 02, [1]), after BEGIN.
const PICTURES: [(&str, &str); 26] = [
    ("picture-row", "90000 D0002 D0001 D0005 D0001 00001 00002 00003 00004"),
    ("picture-rows", "90000 D0002 D0001 D0003 D0003 00001 00002 00003 00004 00005 00006"),
    ("picture-swapped-across", "90000 D0003 D0001 D0002 D0003 00001 00002 00003 00004 00005 00006"),
    ("picture-swapped-up", "90000 D0002 D0003 D0003 D0001 00001 00002 00003 00004 00005 00006"),
    ("picture-swapped-both", "90000 D0003 D0003 D0002 D0001 00001 00002 00003 00004 00005 00006"),
    ("picture-one-pixel", "90000 D0009 D0009 D0009 D0009 00007"),
    ("picture-used-up", "90000 D0009 D0009 D0009 D0009 00007 00008"),
    ("picture-no-region", "00007"),
    ("picture-against-direction", "90001 D0009 D0009 D0009 D0009 00007"),
    ("picture-bit-2-is-not-used", "90004 D0009 D0009 D000A D0009 00007 00008"),
    ("picture-past-the-right-border", "90000 D00FE D0001 D0101 D0002 00001 00002 00003 00004 00005 00006 00007 00008"),
    ("picture-past-the-last-row", "90000 D0001 D0021 D0001 D001E 00001 00002 00003 00004"),
    ("picture-far-outside", "90000 D3FFF D3FFF D3FFE D3FFF 00001 00002 00003"),
    ("picture-outside-the-window", "E0006 D0000 D0001 D0001 D0000 D0000 90000 D0008 D0008 D0009 D0008 00007 00008"),
    ("picture-through-transparency", "E0005 D0000 90000 D0008 D0008 D0009 D0008 00007 00008"),
    ("picture-depth-is-not-tested", "E0003 D0040 E0004 D000E 90000 D0000 D0000 D0001 D0000 0FFFF 0FFFF E0004 D0006 10005 20009 50000 40004 30004 40000"),
    ("picture-planes", "E000A D00F0 90000 D0000 D0000 D0001 D0000 0FFFF 01234 E000A D0F0F 90000 D0000 D0000 D0001 D0000 0A5A5 0FFFF"),
    ("picture-in-z-ignores-planes", "E000A D0000 E0004 D000E 90000 D0000 D0000 D0001 D0000 00003 00004 E000A DFFFF E0004 D0006 10005 50000 40004 30004 40000"),
    ("picture-in-z", "E0003 D0040 E0004 D000E 90000 D0000 D0000 D0003 D0000 00003 00004 00005 00006 E0004 D0006 10005 20005 50000 40008 30008 40000"),
    ("picture-memory-chosen-at-each-pixel", "90000 D0000 D0000 D0003 D0000 00003 E0004 D000E 00004 E0004 D0006 00005 E0004 D000E 00006"),
    ("picture-i-disabled", "E0004 D0002 90000 D0000 D0000 D0001 D0000 00003 00004"),
    ("picture-z-disabled", "E0004 D000C 90000 D0000 D0000 D0001 D0000 00003 00004 E0004 D0004 10005 50000 40004 30004 40000"),
    ("picture-over-an-open-strip", "10001 30000 50000 40009 90000 D0003 D0003 D0004 D0003 00007 00008 30009 40000"),
    ("picture-over-an-open-line", "30000 80000 E000C D0000 90000 D0003 D0003 D0004 D0003 00007 30005 B0005 00008 B0000"),
    ("picture-new-region-with-the-last-corner", "90000 D0000 D0000 D0003 D0000 00001 90000 D0000 D0005 D0003 D0005 00002 00003 00004 00005"),
    ("picture-init-drops-the-region", "90000 D0000 D0000 D0003 D0000 00001 F0000 00002"),
];

/// Each bit of IMG, the limits of each corner, IMODE, and transfers and IMG
/// while a parameter is awaited.
fn images() -> Vec<Edge> {
    let mut edges = Vec::new();
    for place in 0..16 {
        let corners = "D0001 D0001 D0002 D0001 00005 00006 00007";
        edges.push(edge(format!("img-bit-{}", place), &format!("{}{}{}", BEGIN, word(9, 1 << place), corners)));
    }
    for position in 0..4 {
        for value in [0, 8192, 16383, 16384, 65535] {
            let mut corners = [3, 3, 3, 3];
            corners[position] = value;
            let parameters: String = corners.iter().map(|corner| word(0xD, *corner)).collect();
            let name = format!("img-{}-{}", ["x0", "y0", "x1", "y1"][position], value);
            edges.push(edge(name, &format!("{}90000 {}00005 00006", BEGIN, parameters)));
        }
    }
    for value in [0, 1, 2, 65535] {
        edges.push(edge(format!("imode-{}", value), &format!("{}E0002 {}E0002", BEGIN, word(0xD, value))));
    }
    for (name, words) in [
        ("ptrn-while-corners-are-awaited", "90000 D0001 D0001 D0002 00005"),
        ("img-while-corners-are-awaited", "90000 D0001 D0001 D0002 90000"),
        ("five-corners", "90000 D0001 D0001 D0002 D0002 D0003"),
    ] {
        edges.push(edge(name.to_string(), &format!("{}{}", BEGIN, words)));
    }
    edges
}

/// Whole programs.
const WHOLE: [(&str, &str); 20] = [
    ("example", "F0000 E0004 D0006 10064 2000A 30000 50000 100C8 30000 40002 1012C 30002 40000"),
    ("sheet-2d-lines", SHEET_LINES),
    ("enables-off-after-init", "F0000 10064 50000 40008 30008 40000"),
    ("only-i-enabled", "F0000 E0004 D0004 10064 20005 50000 40008 30008 40000"),
    ("only-z-enabled", "F0000 E0004 D0002 10064 20005 50000 40008 30008 40000 E0004 D0004 50000 40008 30004 40000"),
    ("init-refused-first", "F4000 F000F"),
    ("init-refused-only", "F000F"),
    ("init-refused-later-keeps-length", "F0100 E0004 D0006 10007 50000 40008 30008 40000 F1000"),
    ("init-while-awaited", "F0000 E0006 D0001 D0002 F0100 D0003"),
    ("init-refused-while-awaited", "F0000 E0006 D0001 F0008"),
    ("init-clears-registers", "F0000 10007 20005 30009 F0000 E0004 D0006 E0001 D0002 80000 E000C D0000 10009 40008"),
    ("init-longer-lines", "F0000 E0004 D0006 10007 50000 400FF 3001F 40000 F0100 E0004 D0006 30017 500F0 30018 40140 400A0"),
    ("init-no-rows", "F0000 E0004 D0006 10007 50000 400FF 3001F 40000 F2D00 E0004 D0006 50000 400FF 3001F 40000"),
    ("init-one-row", "F2C00 E0004 D0006 10007 80000 E000C D0000 B1FFF 30001 80000 E000C D0000 B1FFF"),
    ("parameters-parked", "F0000 E0004 D0006 E0006 D0000 D0001 D0002"),
    ("color-half-given", "F0000 E0004 D0006 80000 E000C D0000 B0008 E0008 D0005"),
    ("parameter-one-too-many", "F0000 E0008 D0001 D0002 D0003"),
    ("window-then-subcommand", "F0000 E0006 D0001 D0002 D0003 D0004 E0000"),
    ("window-then-unknown-subcommand", "F0000 E0006 D0001 D0002 D0003 D0004 E000D"),
    ("window-then-section", "F0000 E0006 D0001 D0002 D0003 D0004 E0007"),
];


#[cfg(test)]
mod tests {
    use super::*;

    #[test]
    fn names_are_different() {
        let edges = edges();
        let mut names: Vec<&str> = edges.iter().map(|edge| edge.name.as_str()).collect();
        names.sort_unstable();
        let count = names.len();
        names.dedup();
        assert_eq!(names.len(), count);
    }
}
