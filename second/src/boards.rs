//! Random calls on boards by seed: drawings whose INIT names the board, and
//! calls that are refused. What came is counted, so that a number or a cause
//! that never came is told.

use crate::board::{for_board, SIZES};
use crate::boardcalls::{line_of, Call, Desk, Told, PAIRS, PLACES};
use crate::commands::*;
use crate::generator::{await_parameter, bad_word};
use crate::program::Program;
use crate::random::Random;
use crate::registers::InitData;
use crate::seeds::write_file;
use crate::stream::{pack_words, Word};
use crate::transfers::picture;
use std::collections::BTreeMap;
use std::path::Path;

/// Writes `calls`, the calls of some seeds, and `expected`, what they tell;
/// fails where something that must come never came.
pub fn write(first: u64, count: u64, directory: &str) -> Result<(), String> {
    let mut came = Came::new();
    let (mut calls, mut expected) = (String::new(), String::new());
    for seed in first..first + count {
        for (call, told) in script(seed, &mut came) {
            calls += &line_of(&call);
            expected += &told.text();
        }
    }
    write_file(&Path::new(directory).join("calls"), calls.as_bytes())?;
    write_file(&Path::new(directory).join("expected"), expected.as_bytes())?;
    match must_come().into_iter().find(|what| !came.contains_key(what)) {
        Some(what) => Err(format!("never came: {}", what)),
        None => Ok(()),
    }
}

/// How often something came, by its name.
type Came = BTreeMap<String, u64>;

fn numbers(what: &str, size: u64, numbers: &[i64]) -> Vec<String> {
    numbers.iter().map(|number| told(what, size, *number)).collect()
}

fn told(what: &str, size: u64, number: i64) -> String {
    format!("a {} that got {}, {} units", what, number, size)
}

/// All that a call on so many units can be told, and each cause of 2, 5 and 9
/// that boards bring, by itself.
fn must_come() -> Vec<String> {
    let mut must = vec!["a board of another N".to_string(), "a run on another N, its length 1, 2 or 4 mod 5".to_string()];
    for size in SIZES {
        let (words, reads): (&[i64], &[i64]) = if size == 1 {
            (&[0, 1, 2, 3, 4, 5, 6, 7, 8, 9, 10, 14], &[0, 2, 3, 6, 14])
        } else {
            (&[0, 1, 2, 3, 4, 5, 6, 7, 8, 9, 10], &[2, 3, 5])
        };
        must.extend(numbers("word", size, words));
        must.extend(numbers("read", size, reads));
        must.extend(numbers("run", size, &[0, 2, 3, 4, 6, 7, 8, 9, 10, 11, 12]));
        must.push(format!("a run over unlike memories that got 11, {} units", size));
        must.push(format!("pixels passed, {} units", size));
        must.push(format!("1 over unlike memories, {} units", size));
        must.extend((0..4).filter(|chips| SIZES.get(*chips) != Some(&size)).map(|chips| wrong_chips(chips as i64, size)));
        must.extend((1..4).map(|unit| wrong_unit(unit, size)));
        must.extend((0..2 * size as usize).map(|memory| unlike(memory, size)));
        must.extend([PTRN, IMG].map(|command| before_init(command, size)));
        if size > 1 {
            must.extend([PTRN, IMG].map(|command| while_awaited(command, size)));
        }
    }
    must
}

fn wrong_chips(chips: i64, size: u64) -> String {
    format!("INIT wrong by chips code {} alone, {} units", chips, size)
}

fn wrong_unit(unit: i64, size: u64) -> String {
    format!("INIT wrong by unit {} alone, {} units", unit, size)
}

fn unlike(memory: usize, size: u64) -> String {
    format!("memory {} alone of another length, {} units", memory, size)
}

fn before_init(command: i64, size: u64) -> String {
    format!("command {} before INIT, {} units", command, size)
}

fn while_awaited(command: i64, size: u64) -> String {
    format!("command {} while a parameter is awaited, {} units", command, size)
}

/// What a call and its answer are to be counted as. The desk is as the call
/// left it: one that is refused changes nothing.
fn counted(desk: &Desk, call: &Call, answer: &Told) -> Vec<String> {
    let size = desk.board.size() as u64;
    match (call, answer) {
        (Call::Word(word), Told::Word(refusal, passed)) => {
            let mut names = causes(desk, *word, *refusal);
            names.push(told("word", size, *refusal));
            if *passed > 0 {
                names.push(format!("pixels passed, {} units", size));
            }
            names
        }
        (_, Told::Read(refusal, _)) => vec![told("read", size, *refusal)],
        (_, Told::Reset(9)) => vec!["a board of another N".to_string()],
        (Call::Run(size, bytes), Told::Run(refusal, _, _)) if !SIZES.contains(size) => {
            let flawed = [1, 2, 4].contains(&(bytes.len() % 5));
            let name = "a run on another N, its length 1, 2 or 4 mod 5".to_string();
            if *refusal == 9 && flawed { vec![name] } else { vec![] }
        }
        (Call::Run(size, _), Told::Run(refusal, _, _)) => {
            let mut names = vec![told("run", *size, *refusal)];
            if *refusal == 11 && odd_lengths(desk, *size as usize).is_some() {
                names.push(format!("a run over unlike memories that got 11, {} units", size));
            }
            names
        }
        _ => vec![],
    }
}

/// The memories of a board of so many units that are of another length than
/// all the others, if not all are of one length.
fn odd_lengths(desk: &Desk, size: usize) -> Option<Vec<usize>> {
    let lengths = &desk.memories.lengths()[..2 * size];
    if lengths.iter().all(|length| *length == lengths[0]) {
        return None;
    }
    let alone = |memory: &usize| {
        let mut others = lengths.to_vec();
        let length = others.remove(*memory);
        others.iter().all(|other| *other == others[0] && *other != length)
    };
    Some((0..lengths.len()).filter(alone).collect())
}

/// The causes that boards bring, each where it is the only one.
fn causes(desk: &Desk, word: Word, refusal: i64) -> Vec<String> {
    let (size, chips) = (desk.board.size() as u64, desk.board.chips());
    let asked = InitData::of(word.data);
    let pictures = [PTRN, IMG].contains(&word.command);
    match refusal {
        1 if odd_lengths(desk, desk.board.size()).is_some() => vec![format!("1 over unlike memories, {} units", size)],
        2 => odd_lengths(desk, desk.board.size()).unwrap_or_default().into_iter().map(|memory| unlike(memory, size)).collect(),
        3 if pictures => vec![before_init(word.command, size)],
        5 if pictures && desk.board.registers().awaiting.is_some() => vec![while_awaited(word.command, size)],
        9 if word.command == INIT && InitData { chips, ..asked }.is_allowed(chips) => vec![wrong_chips(asked.chips, size)],
        9 if word.command == INIT && InitData { unit: 0, ..asked }.is_allowed(chips) => vec![wrong_unit(asked.unit, size)],
        _ => vec![],
    }
}

/// A program whose words become calls on a board, and the board after them.
struct Script<'a> {
    program: Program,
    desk: Desk,
    calls: Vec<(Call, Told)>,
    came: &'a mut Came,
}

/// The calls of a seed, with what they tell.
fn script(seed: u64, came: &mut Came) -> Vec<(Call, Told)> {
    let program = Program::new(Random::new(seed));
    let mut script = Script { program, desk: Desk::at_start(), calls: Vec::new(), came };
    script.begin();
    let calls = script.program.random.from_to(60, 400) as usize;
    while script.calls.len() < calls {
        script.piece();
    }
    script.call(Call::End);
    script.calls
}

impl Script<'_> {
    fn call(&mut self, call: Call) {
        let answer = self.desk.take(&call);
        for name in counted(&self.desk, &call, &answer) {
            *self.came.entry(name).or_insert(0) += 1;
        }
        self.program.registers = self.desk.board.registers().clone();
        self.calls.push((call, answer));
    }

    fn below(&mut self, limit: i64) -> i64 {
        self.program.random.below(limit)
    }

    fn once_in(&mut self, times: i64) -> bool {
        self.program.random.once_in(times)
    }

    fn size(&self) -> usize {
        self.desk.board.size()
    }

    fn any_size(&mut self) -> u64 {
        self.program.random.pick(&[1, 2, 2, 4, 4]) as u64
    }

    fn wrong_size(&mut self) -> u64 {
        let far = self.program.random.pick(&[0, 1, 2, 4]) as u64;
        match self.below(4) {
            0 => self.program.random.pick(&[0, 3, 5, 6, 7, 8, 16]) as u64,
            1 => (1 << self.program.random.from_to(16, 62)) + far,
            2 => u64::MAX - far,
            _ => 3,
        }
    }

    /// The words so far become calls, with the board's chips code in INIT.
    fn flush(&mut self) {
        for word in std::mem::take(&mut self.program.words) {
            let word = for_board(self.desk.board.chips(), word);
            self.call(Call::Word(word));
        }
    }

    /// A word as it stands.
    fn word(&mut self, command: i64, data: i64) {
        self.flush();
        self.call(Call::Word(Word::new(command, data)));
    }

    fn read(&mut self) {
        self.flush();
        self.call(Call::Read);
    }

    /// Gives what is awaited, so that other words are taken again; 0 is
    /// allowed at every position.
    fn settle(&mut self) {
        self.flush();
        while self.desk.board.registers().awaiting.is_some() {
            self.word(PARM, 0);
        }
    }

    /// A reset, now and then with a wrong N before it, memories for it, and
    /// mostly an INIT that is taken.
    fn begin(&mut self) {
        if self.once_in(3) {
            let wrong = self.wrong_size();
            self.call(Call::Reset(wrong));
        }
        let size = self.any_size();
        self.call(Call::Reset(size));
        self.lend_usual();
        if self.once_in(3) {
            self.words_before_init();
        }
        self.program.opening();
        self.flush();
    }

    fn words_before_init(&mut self) {
        for _ in 0..self.program.random.from_to(1, 4) {
            let data = self.below(65536);
            let command = self.program.random.pick(&[PTRN, IMG, I, X, LX, AUX, PARM, 0x7]);
            self.word(command, data);
        }
        self.read();
    }

    fn piece(&mut self) {
        match self.below(27) {
            0..=8 => self.program.piece(),
            9 | 10 => self.region(),
            11..=13 => bad_word(&mut self.program),
            14 | 15 => self.any_init(),
            16 | 17 => self.over_unlike_memories(),
            18 | 19 => self.over_other_lengths(),
            20 => self.pictures_while_awaited(),
            21 => self.above_15(),
            22 | 23 => self.run(true),
            24 => self.read(),
            _ => self.begin(),
        }
        self.settle();
    }

    /// A picture to memory, or some pixels from it.
    fn region(&mut self) {
        if self.once_in(2) {
            return picture(&mut self.program);
        }
        self.word(IMG, 1);
        let (x, y) = (self.program.x(), self.program.y());
        for corner in [x, y, (x + 2).min(LARGEST_COORDINATE), y] {
            self.word(PARM, corner);
        }
        for _ in 0..4 {
            self.read();
        }
    }

    /// INIT with any chips code, any unit, or both.
    fn any_init(&mut self) {
        if self.once_in(4) {
            await_parameter(&mut self.program);
            self.flush();
        }
        let own = self.desk.board.chips();
        let (chips, unit) = match self.below(4) {
            0 | 1 => (self.below(4), 0),
            2 => (own, self.below(4)),
            _ => (self.below(4), self.below(4)),
        };
        let page = if self.once_in(8) { 8 } else { self.below(8) };
        self.word(INIT, 64 * chips + 16 * unit + page);
        self.program.subcommand(HCONTROL, &[6]);
    }

    /// Memories for so many units, of one length, and for others any.
    fn lend(&mut self, size: usize, length: usize) -> [usize; 2 * PAIRS] {
        let mut lengths = [length; 2 * PAIRS];
        for other in &mut lengths[2 * size..] {
            *other = self.program.random.below(PLACES as i64 + 1) as usize;
        }
        self.flush();
        self.call(Call::Lend(lengths));
        lengths
    }

    /// As many places as the drawing program's picture has, all units
    /// together.
    fn lend_usual(&mut self) -> [usize; 2 * PAIRS] {
        self.lend(self.size(), PLACES / self.size())
    }

    /// One memory of the board is of another length; words and a read are
    /// refused, whatever they are. A command above 15 is told first.
    fn over_unlike_memories(&mut self) {
        let mut lengths = self.lend_usual();
        let memory = self.below(2 * self.size() as i64) as usize;
        lengths[memory] = match self.below(4) {
            0 => self.below(PLACES as i64 + 1) as usize,
            1 => 0,
            _ => lengths[memory] - 1,
        };
        self.call(Call::Lend(lengths));
        if self.once_in(3) {
            self.above_15();
        }
        let chips = self.desk.board.chips();
        self.word(INIT, 64 * chips);
        self.program.add_point();
        self.read();
        if self.once_in(3) {
            self.run(false);
        }
        self.lend_usual();
    }

    /// Some pieces over memories of other lengths: no whole row, some and a
    /// rest, or more than usual.
    fn over_other_lengths(&mut self) {
        let row = self.desk.board.registers().line_length as usize / self.size();
        let any = self.below(PLACES as i64 + 1) as usize;
        let length = [0, row - 1, row, row + 1, 3 * row - 1, any, PLACES][self.below(7) as usize].min(PLACES);
        self.lend(self.size(), length);
        for _ in 0..self.program.random.from_to(1, 4) {
            self.program.piece();
            self.settle();
        }
        if !self.once_in(4) {
            self.lend_usual();
        }
    }

    /// Commands 0 and 9 while a parameter is awaited.
    fn pictures_while_awaited(&mut self) {
        await_parameter(&mut self.program);
        self.program.push(AUX, MASK);
        for _ in 0..2 {
            let (command, data) = (self.program.random.pick(&[PTRN, IMG]), self.program.random.pick(&[0, 1, 4, 65535]));
            self.word(command, data);
        }
        self.read();
    }

    fn above_15(&mut self) {
        let (command, data) = (self.program.random.from_to(16, 255), self.below(65536));
        self.word(command, data);
    }

    /// A stream in one call, on any N: a drawing and perhaps a bad word, now
    /// and then from no INIT, damaged, or empty. The board is then the run's.
    fn run(&mut self, lend: bool) {
        self.flush();
        let size = if self.once_in(6) { self.wrong_size() } else { self.program.random.pick(&[1, 2, 4]) as u64 };
        let chips = SIZES.iter().position(|one| *one == size);
        if let (Some(chips), true) = (chips, lend) {
            self.lend(1 << chips, PLACES >> chips);
        }
        let mut drawing = Program::new(Random::new(self.below(1 << 40) as u64));
        match self.below(10) {
            0 => {}
            1 => drawing.push(I, 5),
            _ => drawing.drawing(self.program.random.from_to(5, 60) as usize),
        }
        if self.once_in(2) {
            bad_word(&mut drawing);
        }
        let mut words: Vec<Word> = drawing.words.iter().map(|word| for_board(chips.unwrap_or(0) as i64, *word)).collect();
        if size > 1 && !self.once_in(6) {
            words = without_pictures(&words);
        }
        let bytes = self.damaged(pack_words(&words), words.len() % 2 == 1);
        self.call(Call::Run(size, bytes));
        self.lend_usual();
        if !self.desk.board.registers().initialised && !self.once_in(4) {
            self.program.opening();
        }
    }

    /// Now and then a byte is lost, or the last half byte of an odd stream set.
    fn damaged(&mut self, mut bytes: Vec<u8>, odd: bool) -> Vec<u8> {
        match self.below(8) {
            0 => {
                bytes.pop();
            }
            1 if odd => *bytes.last_mut().expect("an odd stream has bytes") |= 1 << self.below(4),
            _ => {}
        }
        bytes
    }
}

/// The words without those that boards of more than one unit don't take, and
/// without the corners behind IMG.
fn without_pictures(words: &[Word]) -> Vec<Word> {
    let mut kept = Vec::new();
    let mut after_img = false;
    for word in words {
        after_img = word.command == IMG || after_img && word.command == PARM;
        if !after_img && word.command != PTRN {
            kept.push(*word);
        }
    }
    kept
}

#[cfg(test)]
mod tests {
    use super::*;

    /// The seeds that the gate takes have all that must come, and often.
    #[test]
    fn all_that_must_come_comes() {
        let mut came = Came::new();
        for seed in 0..600 {
            script(seed, &mut came);
        }
        for what in must_come() {
            assert!(came.get(&what).is_some_and(|times| *times >= 3), "rare: {}", what);
        }
    }

    /// Twice the same.
    #[test]
    fn scripts_are_by_seed() {
        let calls = |seed| script(seed, &mut Came::new());
        assert_eq!(calls(5), calls(5));
        assert_ne!(calls(5), calls(6));
    }
}
