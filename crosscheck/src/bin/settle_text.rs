//! Reads one book on standard input and prints what settle_book must print.

use settlement::text::settle_book_text;
use std::io::{self, Read, Write};
use std::process::ExitCode;

fn run() -> io::Result<()> {
    let mut book = Vec::new();
    io::stdin().lock().read_to_end(&mut book)?;
    io::stdout().write_all(settle_book_text(&book).as_bytes())
}

fn main() -> ExitCode {
    match run() {
        Ok(()) => ExitCode::SUCCESS,
        Err(error) => {
            eprintln!("settle_text: {error}");
            ExitCode::FAILURE
        }
    }
}
