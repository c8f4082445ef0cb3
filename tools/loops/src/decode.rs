//! One instruction of x86-64: how long it is, and what it means for loops and divisions. It knows what a compiler makes for plain x86-64
//! and says so where it meets anything else: an instruction that it guessed wrong would hide those behind it.

/// What an instruction is, as far as loops and divisions go. Jumps have their distance from the instruction's end.
#[derive(Clone, Copy, Debug, PartialEq)]
pub enum Sort {
    /// goes on to the next, and is none of those below
    Plain,
    /// a division, of any width, of whole or floating numbers
    Divides,
    /// stores 16 bits, or several such numbers together, elsewhere than at the stack pointer
    Stores,
    /// does nothing: what fills up the space between two others
    Fills,
    Jumps(i64),
    Branches(i64),
    Calls,
    /// jumps to where a register says
    Switches,
    CallsAnywhere,
    /// nothing comes after it
    Ends,
}

#[derive(Clone, Copy, Debug, PartialEq)]
pub struct Instruction {
    pub length: usize,
    pub sort: Sort,
}

/// What stands behind an opcode: an operand (ModRM and what belongs to it), and an immediate number of so many bytes.
struct Form {
    operand: bool,
    immediate: usize,
}

fn form(operand: bool, immediate: usize) -> Option<Form> {
    Some(Form { operand, immediate })
}

/// Prefixes and opcode of an instruction. `page` is 0 for opcodes of one byte, 1 behind 0F, 2 behind 0F 38, 3 behind 0F 3A.
struct Head {
    short: bool,
    wide: bool,
    repeated: bool,
    rex: u8,
    page: u8,
    opcode: u8,
    length: usize,
}

fn head(code: &[u8]) -> Option<Head> {
    let mut h = Head { short: false, wide: false, repeated: false, rex: 0, page: 0, opcode: 0, length: 0 };
    loop {
        match *code.get(h.length)? {
            0x66 => h.short = true,
            0xf2 | 0xf3 => h.repeated = true,
            0xf0 | 0x2e | 0x36 | 0x3e | 0x26 | 0x64 | 0x65 => {}
            _ => break,
        }
        h.length += 1;
    }
    if *code.get(h.length)? & 0xf0 == 0x40 {
        h.rex = code[h.length];
        h.wide = h.rex & 8 != 0;
        h.length += 1;
    }
    if *code.get(h.length)? == 0x0f {
        h.length += 1;
        h.page = match *code.get(h.length)? {
            0x38 => 2,
            0x3a => 3,
            _ => 1,
        };
        h.length += usize::from(h.page > 1);
    }
    h.opcode = *code.get(h.length)?;
    h.length += 1;
    Some(h)
}

/// The form of an opcode of one byte; `reg` is the field of ModRM that tells some of them apart.
fn one_byte(h: &Head, reg: u8) -> Option<Form> {
    let full = if h.short && !h.wide { 2 } else { 4 };
    match h.opcode {
        op @ 0x00..=0x3f => match op & 7 {
            0..=3 => form(true, 0),
            4 => form(false, 1),
            5 => form(false, full),
            _ => None,
        },
        0x50..=0x5f | 0x90..=0x99 | 0xa4..=0xa7 | 0xaa..=0xaf | 0xc3 | 0xc9 | 0xcc | 0xf4 => form(false, 0),
        0x63 | 0x84..=0x8b | 0x8d | 0xd0..=0xd3 | 0xfe | 0xff => form(true, 0),
        0x68 | 0xa9 => form(false, full),
        0x69 | 0x81 | 0xc7 => form(true, full),
        0x6a | 0xa8 | 0xb0..=0xb7 | 0x70..=0x7f | 0xeb => form(false, 1),
        0x6b | 0x80 | 0x83 | 0xc0 | 0xc1 | 0xc6 => form(true, 1),
        0xb8..=0xbf => form(false, if h.wide { 8 } else { full }),
        0xe8 | 0xe9 => form(false, 4),
        0xf6 => form(true, if reg < 2 { 1 } else { 0 }),
        0xf7 => form(true, if reg < 2 { full } else { 0 }),
        _ => None,
    }
}

/// The form of an opcode behind 0F.
fn two_bytes(opcode: u8) -> Option<Form> {
    match opcode {
        0x0b | 0xc8..=0xcf => form(false, 0),
        0x0d | 0x10..=0x17 | 0x18..=0x1f | 0x28..=0x2f | 0x40..=0x6f | 0x74..=0x76 | 0x7c..=0x7f => form(true, 0),
        0x90..=0x9f | 0xa3 | 0xa5 | 0xab | 0xad | 0xaf | 0xb0 | 0xb1 | 0xb3 | 0xb6..=0xb8 | 0xbb..=0xc1 | 0xd0..=0xfe => form(true, 0),
        0x70..=0x73 | 0xa4 | 0xac | 0xba | 0xc2 | 0xc4..=0xc6 => form(true, 1),
        0x80..=0x8f => form(false, 4),
        _ => None,
    }
}

/// How many bytes the operand has: ModRM, SIB and a displacement.
fn operand(code: &[u8]) -> Option<usize> {
    let byte = *code.first()?;
    let (mode, base) = (byte >> 6, byte & 7);
    if mode == 3 {
        return Some(1);
    }
    let scaled = base == 4;
    let shift = match mode {
        0 if base == 5 || (scaled && *code.get(1)? & 7 == 5) => 4,
        0 => 0,
        1 => 1,
        _ => 4,
    };
    Some(1 + usize::from(scaled) + shift)
}

/// Whether the operand is memory, and not at the stack pointer. (A base of 4 says that SIB names it, and 4 there is the stack pointer.)
fn elsewhere(rex: u8, operand: &[u8]) -> bool {
    operand[0] >> 6 != 3 && !(operand[0] & 7 == 4 && operand[1] & 7 == 4 && rex & 1 == 0)
}

fn signed(bytes: &[u8]) -> i64 {
    match bytes.len() {
        1 => i64::from(bytes[0] as i8),
        _ => i64::from(i32::from_le_bytes([bytes[0], bytes[1], bytes[2], bytes[3]])),
    }
}

fn sort(h: &Head, operand: &[u8], immediate: &[u8]) -> Sort {
    let reg = operand.first().map_or(0, |byte| byte >> 3 & 7);
    match (h.page, h.opcode) {
        (0, 0xf6 | 0xf7) if reg >= 6 => Sort::Divides,
        (1, 0x5e) => Sort::Divides,
        (0, 0x89 | 0xc7) if h.short && !h.wide && elsewhere(h.rex, operand) => Sort::Stores,
        (1, 0x11 | 0x13 | 0x17 | 0x29 | 0x2b | 0x7f | 0xd6 | 0xe7) if elsewhere(h.rex, operand) => Sort::Stores,
        (1, 0x7e) if !h.repeated && elsewhere(h.rex, operand) => Sort::Stores,
        (0, 0x90 | 0xcc) | (1, 0x1f) => Sort::Fills,
        (0, 0x70..=0x7f) | (1, 0x80..=0x8f) => Sort::Branches(signed(immediate)),
        (0, 0xeb | 0xe9) => Sort::Jumps(signed(immediate)),
        (0, 0xe8) => Sort::Calls,
        (0, 0xff) if reg == 2 || reg == 3 => Sort::CallsAnywhere,
        (0, 0xff) if reg == 4 || reg == 5 => Sort::Switches,
        (0, 0xc3 | 0xf4) | (1, 0x0b) => Sort::Ends,
        _ => Sort::Plain,
    }
}

/// The instruction at the front of the code; nothing where it is not known.
pub fn decode(code: &[u8]) -> Option<Instruction> {
    let h = head(code)?;
    let rest = &code[h.length..];
    let reg = rest.first().map_or(0, |byte| byte >> 3 & 7);
    let f = match h.page {
        0 => one_byte(&h, reg)?,
        1 => two_bytes(h.opcode)?,
        2 => form(true, 0)?,
        _ => form(true, 1)?,
    };
    let taken = if f.operand { operand(rest)? } else { 0 };
    let length = h.length + taken + f.immediate;
    let whole = code.get(..length)?;
    let sort = sort(&h, &whole[h.length..h.length + taken], &whole[h.length + taken..]);
    // a repeated jump or branch is none that a compiler makes
    let odd = h.repeated && matches!(sort, Sort::Jumps(_) | Sort::Branches(_) | Sort::Calls);
    (!odd).then_some(Instruction { length, sort })
}

#[cfg(test)]
mod tests {
    use super::*;

    fn is(code: &[u8], length: usize, sort: Sort) {
        assert_eq!(decode(code), Some(Instruction { length, sort }), "{code:02x?}");
    }

    #[test]
    fn divisions_of_every_width() {
        is(&[0x48, 0xf7, 0xf7], 3, Sort::Divides); // div rdi
        is(&[0x41, 0xf7, 0xf7], 3, Sort::Divides); // div r15d
        is(&[0xf7, 0xb4, 0x24, 0xb8, 0, 0, 0], 7, Sort::Divides); // div dword [rsp + 184]
        is(&[0x48, 0xf7, 0x3d, 1, 2, 3, 4], 7, Sort::Divides); // idiv qword [rip + ..]
        is(&[0x66, 0xf7, 0xf9], 3, Sort::Divides); // idiv cx
        is(&[0xf6, 0xf1], 2, Sort::Divides); // div cl
        is(&[0xf2, 0x0f, 0x5e, 0xc1], 4, Sort::Divides); // divsd xmm0, xmm1
    }

    #[test]
    fn neighbours_of_divisions() {
        is(&[0xf7, 0xd8], 2, Sort::Plain); // neg eax
        is(&[0xf7, 0xe1], 2, Sort::Plain); // mul ecx
        is(&[0xf7, 0xc1, 1, 0, 0, 0], 6, Sort::Plain); // test ecx, 1
        is(&[0x66, 0xf7, 0xc1, 1, 0], 5, Sort::Plain); // test cx, 1
        is(&[0xf6, 0xc1, 1], 3, Sort::Plain); // test cl, 1
        is(&[0x48, 0x0f, 0xaf, 0xc1], 4, Sort::Plain); // imul rax, rcx
    }

    #[test]
    fn stores_of_16_bits() {
        is(&[0x66, 0x43, 0x89, 0x5c, 0x1d, 0], 6, Sort::Stores); // mov [r13 + r11], bx
        is(&[0x66, 0x42, 0x89, 0x4c, 0x7d, 0], 6, Sort::Stores); // mov [rbp + r15*2], cx
        is(&[0x66, 0x41, 0x89, 0x0c, 0x24], 5, Sort::Stores); // mov [r12], cx
        is(&[0xf3, 0x0f, 0x7f, 0x04, 0x77], 5, Sort::Stores); // movdqu [rdi + rsi*2], xmm0
        is(&[0x66, 0x0f, 0x7e, 0x14, 0x4f], 5, Sort::Stores); // movd [rdi + rcx*2], xmm2
        is(&[0xf3, 0x0f, 0x7e, 0x04, 0x77], 5, Sort::Plain); // movq xmm0, [rdi + rsi*2]
        is(&[0x66, 0x0f, 0x7e, 0xc0], 4, Sort::Plain); // movd eax, xmm0
        is(&[0x66, 0x89, 0x44, 0x24, 8], 5, Sort::Plain); // mov [rsp + 8], ax
        is(&[0x66, 0x89, 0xc1], 3, Sort::Plain); // mov cx, ax
        is(&[0x89, 0x08], 2, Sort::Plain); // mov [rax], ecx
    }

    #[test]
    fn jumps() {
        is(&[0x74, 0xfe], 2, Sort::Branches(-2));
        is(&[0x0f, 0x87, 0, 1, 0, 0], 6, Sort::Branches(256));
        is(&[0xe9, 0xfb, 0xff, 0xff, 0xff], 5, Sort::Jumps(-5));
        is(&[0xff, 0xe0], 2, Sort::Switches);
        is(&[0xff, 0xd0], 2, Sort::CallsAnywhere);
        is(&[0xe8, 0, 0, 0, 0], 5, Sort::Calls);
        is(&[0xc3], 1, Sort::Ends);
    }

    #[test]
    fn lengths() {
        is(&[0x66, 0x66, 0x2e, 0x0f, 0x1f, 0x84, 0, 0, 0, 0, 0], 11, Sort::Fills);
        is(&[0x48, 0xb8, 1, 2, 3, 4, 5, 6, 7, 8], 10, Sort::Plain); // mov rax, imm64
        is(&[0x66, 0x81, 0xf9, 1, 2], 5, Sort::Plain); // cmp cx, imm16
        is(&[0x8b, 0x04, 0x8d, 1, 2, 3, 4], 7, Sort::Plain); // mov eax, [rcx*4 + disp32]
        is(&[0x66, 0x0f, 0x70, 0xc0, 0x50], 5, Sort::Plain); // pshufd
        is(&[0x66, 0x0f, 0x3a, 0x0f, 0xc1, 4], 6, Sort::Plain); // palignr
    }

    #[test]
    fn what_is_not_known() {
        assert_eq!(decode(&[0xc5, 0xf8, 0x77]), None); // vzeroupper
        assert_eq!(decode(&[0x48, 0xf7]), None); // cut short
        assert_eq!(decode(&[]), None);
    }
}
