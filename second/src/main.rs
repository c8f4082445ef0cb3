//! A second program for the display chip's command machine, written from
//! the rules alone and without an eye to speed: every pixel around a figure
//! is asked whether the figure holds it.

mod board;
mod boardcalls;
mod boards;
mod commands;
mod cuts;
mod damages;
mod directories;
mod edges;
#[cfg(test)]
mod examples;
mod figures;
mod generator;
mod hexwords;
mod instalments;
mod mend;
mod overdraw;
mod picture;
mod pictures;
mod printing;
mod program;
mod random;
mod regions;
mod registers;
mod run;
mod scripts;
mod seeds;
mod shares;
mod situations;
mod squares;
mod starts;
mod stream;
mod strobes;
mod surface;
mod trace;
mod transfers;
mod vectors;

use std::io::{self, Read, Write};
use std::process::ExitCode;

const USAGE: &str = "usage: second draw | receive | pack | unpack | generate SEED | seeds FIRST COUNT DIR | cuts FIRST COUNT DIR | vectors DIR | \
    shares FIRST COUNT | mend | damages FIRST COUNT DIR | squares FIRST COUNT DIR | answer | scripts FIRST COUNT DIR | boards FIRST COUNT DIR | \
    overdraw | directories FIRST COUNT DIR | surface | image PLACES | trace [X Y] | traces FIRST COUNT DIR";

fn main() -> ExitCode {
    let arguments: Vec<String> = std::env::args().skip(1).collect();
    let arguments: Vec<&str> = arguments.iter().map(String::as_str).collect();
    match dispatch(&arguments) {
        Ok(()) => ExitCode::SUCCESS,
        Err(message) => {
            eprintln!("second: {}", message);
            ExitCode::FAILURE
        }
    }
}

fn dispatch(arguments: &[&str]) -> Result<(), String> {
    match arguments {
        ["draw"] => draw(),
        ["receive"] => receive(),
        ["pack"] => write_out(&hexwords::pack_text(&read_all()?)?),
        ["unpack"] => write_out(hexwords::unpack_text(&read_all()?)?.as_bytes()),
        ["generate", seed] => write_out(&generator::generate(number(seed)?)),
        ["seeds", first, count, directory] => seeds::write(number(first)?, number(count)?, directory),
        ["cuts", first, count, directory] => cuts::write(number(first)?, number(count)?, directory),
        ["answer"] => answer(),
        ["scripts", first, count, directory] => scripts::write(number(first)?, number(count)?, directory),
        ["boards", first, count, directory] => boards::write(number(first)?, number(count)?, directory),
        ["vectors", directory] => vectors::write(directory),
        ["shares", first, count] => print_shares(number(first)?, number(count)?),
        ["mend"] => mend(),
        ["damages", first, count, directory] => damages::write(number(first)?, number(count)?, directory),
        ["squares", first, count, directory] => pictures::write(number(first)?, number(count)?, directory),
        ["overdraw"] => write_out(overdraw::report(std::path::Path::new("."))?.as_bytes()),
        ["directories", first, count, directory] => directories::write(number(first)?, number(count)?, directory),
        ["surface"] => write_out(&surface::recording()),
        ["image", places] => write_out(&printing::image(&read_all()?, number(places)? as usize)?),
        ["trace"] => write_out(trace::trace(&recording()?).as_bytes()),
        ["trace", x, y] => write_out(trace::watch(&recording()?, number(x)? as i64, number(y)? as i64).as_bytes()),
        ["traces", first, count, directory] => trace::write(number(first)?, number(count)?, directory),
        _ => Err(USAGE.to_string()),
    }
}

fn number(text: &str) -> Result<u64, String> {
    text.parse().map_err(|_| format!("not a number: {}", text))
}

fn read_all() -> Result<Vec<u8>, String> {
    read_at_most(u64::MAX)
}

fn read_at_most(limit: u64) -> Result<Vec<u8>, String> {
    let mut bytes = Vec::new();
    let read = io::stdin().lock().take(limit).read_to_end(&mut bytes);
    read.map_err(|error| format!("reading: {}", error))?;
    Ok(bytes)
}

fn write_out(bytes: &[u8]) -> Result<(), String> {
    let mut out = io::stdout().lock();
    out.write_all(bytes).and_then(|()| out.flush()).map_err(|error| format!("writing: {}", error))
}

/// One byte more than allowed is enough to know that there are too many.
fn draw() -> Result<(), String> {
    let bytes = read_at_most(printing::LONGEST_STREAM as u64 + 1)?;
    write_out(printing::drawing(&bytes).as_bytes())
}

/// A recording that is traced.
fn recording() -> Result<Vec<u8>, String> {
    let bytes = read_at_most(trace::LONGEST_RECORDING as u64 + 1)?;
    if bytes.len() > trace::LONGEST_RECORDING {
        return Err("too long".to_string());
    }
    Ok(bytes)
}

/// The new stream goes to standard output, what is said of it to standard
/// error.
fn mend() -> Result<(), String> {
    let bytes = read_at_most(mend::LONGEST_RECORDING as u64 + 1)?;
    if bytes.len() > mend::LONGEST_RECORDING {
        return Err("too long".to_string());
    }
    let mended = mend::mend(&bytes);
    write_out(&mended.stream())?;
    eprint!("{}", mended.said());
    Ok(())
}

/// A recording of any length, a thousand bytes an instalment.
fn receive() -> Result<(), String> {
    let mut picture = picture::Picture::cleared(printing::PLACES);
    let mut recording = instalments::Instalments::begun();
    for part in read_all()?.chunks(1000) {
        recording.feed(part, &mut picture);
    }
    write_out(printing::picture_text(&recording.end(), &picture).as_bytes())
}

/// What words and reads tell.
fn answer() -> Result<(), String> {
    let text = String::from_utf8(read_all()?).map_err(|_| "the input is not text".to_string())?;
    write_out(strobes::answers(&strobes::parse(&text)?).as_bytes())
}

fn print_shares(first: u64, count: u64) -> Result<(), String> {
    let shares = shares::shares(first, count);
    write_out(shares.text().as_bytes())?;
    if !shares.all_came() {
        return Err("a refusal from 3 to 12, or 14, or a situation, never came".to_string());
    }
    if !shares.starts_often() {
        return Err("visible starts or hops are rare".to_string());
    }
    if !shares.ties_often() {
        return Err("lines that tie are rare".to_string());
    }
    if !shares.far_often() {
        return Err("figures that reach the largest coordinate are rare".to_string());
    }
    Ok(())
}
