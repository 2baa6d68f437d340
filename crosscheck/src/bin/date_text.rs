//! Prints what every_date must print; like that program it reads nothing.

use settlement::every_date::every_date_text;
use std::io::{self, Write};
use std::process::ExitCode;

fn main() -> ExitCode {
    match io::stdout().write_all(every_date_text().as_bytes()) {
        Ok(()) => ExitCode::SUCCESS,
        Err(error) => {
            eprintln!("date_text: {error}");
            ExitCode::FAILURE
        }
    }
}
