//! Writes result records to standard output: `m` (that of example M), `books FILE..`
//! (those of the books in these files that are settled, one behind the other), or
//! `case NUMBER` for a seeded input.

use settlement::book::settle;
use settlement::books::examples::example_m;
use settlement::limits::RESULT_LENGTH;
use settlement::records::seeded_input;
use settlement::refusals::ACCEPTED;
use std::fs;
use std::io::{self, Error, Write};
use std::process::ExitCode;

const USAGE: &str = "usage: make_records m | books FILE.. | case NUMBER";

/// The result of a book, and nothing where it is refused.
fn record_of(book: &[u8]) -> Vec<u8> {
    let mut result = [0; RESULT_LENGTH];
    if settle(book, &mut result) != ACCEPTED {
        return Vec::new();
    }
    result.to_vec()
}

fn record_of_file(file: &str) -> io::Result<Vec<u8>> {
    let book = fs::read(file).map_err(|error| Error::other(format!("{file}: {error}")))?;
    Ok(record_of(&book))
}

fn records_of(arguments: &[String]) -> io::Result<Option<Vec<u8>>> {
    let words: Vec<&str> = arguments.iter().map(String::as_str).collect();
    let number = |number: &str| number.parse().ok();
    Ok(match words[..] {
        ["m"] => Some(record_of(&example_m())),
        ["books", ref files @ ..] => {
            let records: io::Result<Vec<_>> = files.iter().map(|f| record_of_file(f)).collect();
            Some(records?.concat())
        }
        ["case", case] => number(case).map(|case| seeded_input(case).input),
        _ => None,
    })
}

fn run(arguments: &[String]) -> io::Result<ExitCode> {
    let Some(records) = records_of(arguments)? else {
        eprintln!("{USAGE}");
        return Ok(ExitCode::from(2));
    };
    io::stdout().write_all(&records)?;
    Ok(ExitCode::SUCCESS)
}

fn main() -> ExitCode {
    let arguments: Vec<String> = std::env::args().skip(1).collect();
    run(&arguments).unwrap_or_else(|error| {
        eprintln!("make_records: {error}");
        ExitCode::FAILURE
    })
}
