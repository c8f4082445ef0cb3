//! The functions of an archive: its members are object files (ELF, 64 bits, little-endian, x86-64) with relocations.

use std::collections::{BTreeMap, BTreeSet, HashMap};

/// A function's code, with what relocations put into it.
pub struct Function {
    pub name: String,
    /// where it starts in its section
    pub start: u64,
    pub code: Vec<u8>,
    /// where a relocation goes to a function: the place in the code, and the name
    pub calls: HashMap<usize, String>,
    /// where the address of a jump table stands: the place in the code, and the table
    pub tables: HashMap<usize, Table>,
}

/// A jump table, by its section and its place there.
pub type Table = (usize, u64);

pub struct Object {
    pub functions: Vec<Function>,
    /// what each jump table leads to: places in the section of the function that has it
    pub targets: BTreeMap<Table, BTreeSet<u64>>,
}

const FUNCTION: u8 = 2;
const EXECUTABLE: u64 = 4;
const RELOCATIONS: u32 = 4;
const SYMBOLS: u32 = 2;
const HAS_NO_BYTES: u32 = 8;
/// the relocation of four bytes by a distance
const RELATIVE: u64 = 2;

type Res<T> = Result<T, String>;

fn number(bytes: &[u8], at: usize, size: usize) -> Res<u64> {
    let part = at.checked_add(size).and_then(|end| bytes.get(at..end)).ok_or("the file is cut short")?;
    Ok(part.iter().rev().fold(0, |n, byte| n << 8 | u64::from(*byte)))
}

fn place(bytes: &[u8], at: usize, size: usize) -> Res<usize> {
    usize::try_from(number(bytes, at, size)?).map_err(|e| e.to_string())
}

/// The name that starts at a place of a table of names.
fn name(names: &[u8], at: usize) -> Res<String> {
    let rest = names.get(at..).ok_or("a name is missing")?;
    let end = rest.iter().position(|byte| *byte == 0).ok_or("a name has no end")?;
    Ok(String::from_utf8_lossy(&rest[..end]).into_owned())
}

/// The object files of an archive; a file that is no archive is one object file.
pub fn members(file: &[u8]) -> Res<Vec<&[u8]>> {
    const HEADING: usize = 60;
    let Some(mut rest) = file.strip_prefix(b"!<arch>\n".as_slice()) else {
        return Ok(vec![file]);
    };
    let mut found = Vec::new();
    while rest.len() >= HEADING {
        let size: usize = String::from_utf8_lossy(&rest[48..58]).trim().parse().map_err(|_| "a member has no size")?;
        let member = rest.get(HEADING..HEADING + size).ok_or("a member is cut short")?;
        // the index of symbols and the table of long names
        if rest[0] != b'/' || rest[1].is_ascii_digit() {
            found.push(member);
        }
        rest = rest.get(HEADING + size + size % 2..).unwrap_or(&[]);
    }
    Ok(found)
}

struct Section<'a> {
    sort: u32,
    flags: u64,
    info: usize,
    link: usize,
    bytes: &'a [u8],
}

struct Symbol {
    name: String,
    sort: u8,
    section: usize,
    value: u64,
    size: u64,
}

struct Relocation {
    at: u64,
    sort: u64,
    symbol: usize,
    addend: i64,
}

fn sections(file: &[u8]) -> Res<Vec<Section<'_>>> {
    if file.get(..6) != Some(b"\x7fELF\x02\x01") || number(file, 16, 2)? != 1 || number(file, 18, 2)? != 62 {
        return Err("no relocatable object file for x86-64".into());
    }
    let (start, size, count) = (place(file, 40, 8)?, place(file, 58, 2)?, place(file, 60, 2)?);
    let mut found = Vec::new();
    for k in 0..count {
        let at = start + k * size;
        let sort = number(file, at + 4, 4)? as u32;
        let (first, length) = (place(file, at + 24, 8)?, place(file, at + 32, 8)?);
        let bytes = if sort == HAS_NO_BYTES { &[] } else { file.get(first..first + length).ok_or("a section is cut short")? };
        found.push(Section { sort, flags: number(file, at + 8, 8)?, link: place(file, at + 40, 4)?, info: place(file, at + 44, 4)?, bytes });
    }
    Ok(found)
}

fn symbols(sections: &[Section]) -> Res<Vec<Symbol>> {
    let Some(table) = sections.iter().find(|s| s.sort == SYMBOLS) else {
        return Ok(Vec::new());
    };
    let names = sections.get(table.link).ok_or("the symbols have no names")?.bytes;
    let one = |b: &[u8]| {
        Ok(Symbol {
            name: name(names, place(b, 0, 4)?)?,
            sort: b[4] & 15,
            section: place(b, 6, 2)?,
            value: number(b, 8, 8)?,
            size: number(b, 16, 8)?,
        })
    };
    table.bytes.chunks_exact(24).map(one).collect()
}

fn relocations(section: &Section) -> Res<Vec<Relocation>> {
    let one = |b: &[u8]| {
        let info = number(b, 8, 8)?;
        Ok(Relocation { at: number(b, 0, 8)?, sort: info & 0xffff_ffff, symbol: (info >> 32) as usize, addend: number(b, 16, 8)? as i64 })
    };
    section.bytes.chunks_exact(24).map(one).collect()
}

/// All code belongs to functions: whatever is left over would not be looked at.
fn covered(sections: &[Section], symbols: &[Symbol]) -> Res<()> {
    for (k, section) in sections.iter().enumerate().filter(|(_, s)| s.flags & EXECUTABLE != 0) {
        let mut parts: Vec<(u64, u64)> = symbols.iter().filter(|s| s.section == k && s.sort == FUNCTION).map(|s| (s.value, s.size)).collect();
        parts.sort_unstable();
        parts.dedup();
        let mut reached = 0;
        for (at, size) in parts {
            let between = section.bytes.get(reached as usize..at as usize).ok_or("two functions overlap")?;
            // what a compiler puts between two functions
            if between.len() >= 16 {
                return Err(format!("section {k} has code that belongs to no function"));
            }
            reached = at + size;
        }
        if reached != section.bytes.len() as u64 {
            return Err(format!("section {k} has code that belongs to no function"));
        }
    }
    Ok(())
}

/// The functions that the symbols name, each with its section.
fn functions(sections: &[Section], symbols: &[Symbol]) -> Vec<(usize, Function)> {
    let is_function = |s: &&Symbol| s.sort == FUNCTION && sections.get(s.section).is_some_and(|k| k.flags & EXECUTABLE != 0);
    let one = |s: &Symbol| {
        let code = sections[s.section].bytes[s.value as usize..(s.value + s.size) as usize].to_vec();
        (s.section, Function { name: s.name.clone(), start: s.value, code, calls: HashMap::new(), tables: HashMap::new() })
    };
    symbols.iter().filter(is_function).map(one).collect()
}

/// What the jump tables lead to. An entry is a distance from its table's start, and its relocation counts from the entry.
fn targets(bases: &BTreeSet<Table>, entries: &[(Table, u64, u64)]) -> Res<BTreeMap<Table, BTreeSet<u64>>> {
    let mut found: BTreeMap<Table, BTreeSet<u64>> = BTreeMap::new();
    for ((section, at), sort, value) in entries {
        // tables that no code names are for others, for instance for unwinding the stack
        let Some(base) = bases.range(..=(*section, *at)).next_back().filter(|b| b.0 == *section) else { continue };
        if *sort != RELATIVE {
            return Err("a jump table of another form".into());
        }
        found.entry(*base).or_default().insert(value - (at - base.1));
    }
    Ok(found)
}

/// The functions of an object file, and its jump tables.
pub fn object(file: &[u8]) -> Res<Object> {
    let sections = sections(file)?;
    let symbols = symbols(&sections)?;
    covered(&sections, &symbols)?;
    let is_code = |k: usize| sections.get(k).is_some_and(|s| s.flags & EXECUTABLE != 0);
    let mut functions = functions(&sections, &symbols);
    let starts: HashMap<(usize, u64), String> = functions.iter().map(|(k, f)| ((*k, f.start), f.name.clone())).collect();
    let mut bases = BTreeSet::new();
    let mut entries = Vec::new();
    for section in sections.iter().filter(|s| s.sort == RELOCATIONS) {
        for r in relocations(section)? {
            let to = symbols.get(r.symbol).ok_or("a relocation has no symbol")?;
            let goal = to.value.wrapping_add_signed(r.addend);
            if !is_code(section.info) {
                if is_code(to.section) {
                    entries.push(((section.info, r.at), r.sort, goal));
                }
                continue;
            }
            let is_owner = |(k, f): &&mut (usize, Function)| *k == section.info && (f.start..f.start + f.code.len() as u64).contains(&r.at);
            let function = &mut functions.iter_mut().find(is_owner).ok_or("a relocation outside of all functions")?.1;
            let at = (r.at - function.start) as usize;
            // distances in code count from the end of their four bytes
            let goal = goal.wrapping_add(4);
            if to.section == 0 {
                function.calls.insert(at, to.name.clone());
            } else if is_code(to.section) {
                let name = starts.get(&(to.section, goal)).ok_or("a call goes into the middle of a function")?;
                function.calls.insert(at, name.clone());
            } else {
                bases.insert((to.section, goal));
                function.tables.insert(at, (to.section, goal));
            }
        }
    }
    Ok(Object { functions: functions.into_iter().map(|f| f.1).collect(), targets: targets(&bases, &entries)? })
}
