//! Reads result records on standard input and prints what report must print.

use settlement::report::report_text;
use std::io::{self, Read, Write};
use std::process::ExitCode;

fn run() -> io::Result<()> {
    let mut input = Vec::new();
    io::stdin().lock().read_to_end(&mut input)?;
    io::stdout().write_all(report_text(&input).as_bytes())
}

fn main() -> ExitCode {
    match run() {
        Ok(()) => ExitCode::SUCCESS,
        Err(error) => {
            eprintln!("report_text: {error}");
            ExitCode::FAILURE
        }
    }
}
