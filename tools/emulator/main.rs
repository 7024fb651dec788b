//! A LoongArch32 Reduced core, written from the manual and the documents to be compared with another.
//!
//! Built by `rustc --edition 2021 -O -o emulator main.rs`; its tests by the same with `--test`.

mod board_text;
mod bus;
mod cpu;
mod csr;
mod decode;
mod dump;
mod exception;
mod execute;
mod setup;
#[cfg(test)]
mod tests;
mod text;
mod tlb;
mod translation;

use std::fs::File;
use std::io::{self, BufWriter, StdoutLock, Write};
use std::process::ExitCode;

const USAGE: &str = "usage: emulator tintrun < SET-UP
       emulator listings SET-UP...
       emulator boards BOARD-TEXT...
       emulator state SET-UP...
       emulator layered < SET-UP";

fn main() -> ExitCode {
    let arguments: Vec<String> = std::env::args().skip(1).collect();
    match command(&arguments) {
        Ok(()) => ExitCode::SUCCESS,
        Err(message) => {
            eprintln!("{message}");
            ExitCode::FAILURE
        }
    }
}

fn command(arguments: &[String]) -> Result<(), String> {
    let (name, files) = arguments.split_first().ok_or(USAGE)?;
    match (name.as_str(), files) {
        ("tintrun", []) => from_input(setup::print_listing),
        ("listings", _) => for_each(files, setup::print_listing),
        ("boards", _) => for_each(files, board_text::print_answers),
        ("state", _) => for_each(files, dump::print_states),
        ("layered", []) => from_input(setup::print_layered_listing),
        _ => Err(USAGE.to_string()),
    }
}

/// Prints what becomes of the text on standard input.
fn from_input(print: Print) -> Result<(), String> {
    let text = setup::read_text(io::stdin()).map_err(|error| format!("standard input: {error}"))?;
    if text.len() as u64 == setup::LONGEST_TEXT {
        eprintln!("no more than {} bytes are read", setup::LONGEST_TEXT);
    }
    let mut out = output();
    print(&text, &mut out)
        .and_then(|()| out.flush())
        .map_err(output_error)
}

/// Prints each file's name and what becomes of its text.
fn for_each(files: &[String], print: Print) -> Result<(), String> {
    let mut out = output();
    for file in files {
        let text = read(file)?;
        writeln!(out, "== {file}")
            .and_then(|()| print(&text, &mut out))
            .map_err(output_error)?;
    }
    out.flush().map_err(output_error)
}

/// A text, of which no more is read than `tintrun` reads.
fn read(file: &str) -> Result<Vec<u8>, String> {
    File::open(file)
        .and_then(setup::read_text)
        .map_err(|error| format!("{file}: {error}"))
}

type Output = BufWriter<StdoutLock<'static>>;

type Print = fn(&[u8], &mut Output) -> io::Result<()>;

fn output() -> Output {
    BufWriter::new(io::stdout().lock())
}

fn output_error(error: io::Error) -> String {
    format!("standard output: {error}")
}
