//! Writes the stored calls of the program call_vectors and the answers of this
//! settlement: `write FOLDER` puts both into a folder, `calls` prints the
//! calls, and `answers` answers the calls on standard input.

use settlement::calls::vectors::stored_calls;
use settlement::calls::{read_calls, Call};
use std::fs;
use std::io::{self, Read, Write};
use std::path::Path;
use std::process::ExitCode;

const USAGE: &str = "usage: make_calls write FOLDER | calls | answers";

fn bytes_of(calls: &[Call]) -> Vec<u8> {
    calls.iter().flat_map(Call::bytes).collect()
}

fn text_of(calls: &[Call]) -> String {
    calls.iter().map(|call| call.answer().1).collect()
}

fn write_both(folder: &Path) -> io::Result<()> {
    let calls = stored_calls();
    fs::write(folder.join("stdin"), bytes_of(&calls))?;
    fs::write(folder.join("stdout"), text_of(&calls))
}

fn answer_input() -> io::Result<()> {
    let mut bytes = Vec::new();
    io::stdin().lock().read_to_end(&mut bytes)?;
    let (calls, whole) = read_calls(&bytes);
    io::stdout().write_all(text_of(&calls).as_bytes())?;
    if !whole {
        eprintln!("make_calls: a call is cut or has no such form");
    }
    Ok(())
}

fn run(arguments: &[String]) -> Option<io::Result<()>> {
    let words: Vec<&str> = arguments.iter().map(String::as_str).collect();
    match words[..] {
        ["write", folder] => Some(write_both(Path::new(folder))),
        ["calls"] => Some(io::stdout().write_all(&bytes_of(&stored_calls()))),
        ["answers"] => Some(answer_input()),
        _ => None,
    }
}

fn main() -> ExitCode {
    let arguments: Vec<String> = std::env::args().skip(1).collect();
    match run(&arguments) {
        Some(Ok(())) => ExitCode::SUCCESS,
        Some(Err(error)) => {
            eprintln!("make_calls: {error}");
            ExitCode::FAILURE
        }
        None => {
            eprintln!("{USAGE}");
            ExitCode::from(2)
        }
    }
}
