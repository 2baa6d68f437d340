//! Writes a book to standard output: `m`, `consumers`, `mixed_firing`, `returning`,
//! `refused`, or `case NUMBER` for a seeded one.

use settlement::books::{examples, seeded_book};
use std::io::{self, Write};
use std::process::ExitCode;

const USAGE: &str =
    "usage: make_book m | consumers | mixed_firing | returning | refused | case NUMBER";

fn book_of(arguments: &[String]) -> Option<Vec<u8>> {
    let words: Vec<&str> = arguments.iter().map(String::as_str).collect();
    match words[..] {
        ["m"] => Some(examples::example_m()),
        ["consumers"] => Some(examples::consumers()),
        ["mixed_firing"] => Some(examples::mixed_firing()),
        ["returning"] => Some(examples::returning()),
        ["refused"] => Some(examples::refused()),
        ["case", number] => Some(seeded_book(number.parse().ok()?).book),
        _ => None,
    }
}

fn main() -> ExitCode {
    let arguments: Vec<String> = std::env::args().skip(1).collect();
    let Some(book) = book_of(&arguments) else {
        eprintln!("{USAGE}");
        return ExitCode::from(2);
    };
    match io::stdout().write_all(&book) {
        Ok(()) => ExitCode::SUCCESS,
        Err(error) => {
            eprintln!("make_book: {error}");
            ExitCode::FAILURE
        }
    }
}
