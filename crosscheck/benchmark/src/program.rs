//! The program settle_book: its time beside `cat`, its text and its memory.

use std::fs::{self, File};
use std::io::Write;
use std::path::Path;
use std::process::{Command, Stdio};
use std::thread::sleep;
use std::time::Duration;

use settlement::text::settle_book_text;

use crate::timing::{Clock, Times};

/// Runs a program on the book of a file, with its output thrown away.
fn run(program: &Path, book: &Path) -> Result<(), String> {
    let told = |error| format!("{}: {error}", program.display());
    let input = File::open(book).map_err(told)?;
    let status = Command::new(program)
        .stdin(input)
        .stdout(Stdio::null())
        .status()
        .map_err(told)?;
    if !status.success() {
        return Err(format!("{}: {status}", program.display()));
    }
    Ok(())
}

/// The times of settle_book and of `cat` on the book of a file.
pub fn beside_cat(settle_book: &Path, book: &Path, turns: usize) -> Result<(Times, Times), String> {
    let (mut settling, mut copying) = (Times::new(Clock::Passing), Times::new(Clock::Passing));
    for _ in 0..turns {
        settling.add(|| run(settle_book, book))?;
        copying.add(|| run(Path::new("cat"), book))?;
    }
    Ok((settling, copying))
}

/// How often the program is looked at until it waits for the end of the book, a millisecond apart.
const MOST_LOOKS: u32 = 60_000;

/// The most memory that a process has held, in kB, once it sleeps.
fn peak_of_sleeping(process: u32) -> Result<u64, String> {
    let path = format!("/proc/{process}/status");
    for _ in 0..MOST_LOOKS {
        let status = fs::read_to_string(&path).map_err(|error| format!("{path}: {error}"))?;
        let line = |name: &str| {
            status
                .lines()
                .find_map(|line| line.strip_prefix(name))
                .map(str::trim)
        };
        if line("State:").is_some_and(|state| state.starts_with('S')) {
            let peak = line("VmHWM:").and_then(|peak| peak.strip_suffix(" kB"));
            let peak = peak.and_then(|peak| peak.trim().parse().ok());
            return peak.ok_or_else(|| format!("{path}: no peak memory"));
        }
        sleep(Duration::from_millis(1));
    }
    Err(format!(
        "{path}: the program does not come to the end of its book"
    ))
}

/// The most memory that settle_book holds for a book, in kB. The book comes through a pipe that is kept open behind the
/// last point, so that the program sleeps there and can be looked at. Its text must be that of the separate settlement.
pub fn peak_memory(settle_book: &Path, book: &[u8]) -> Result<u64, String> {
    let told = |error| format!("{}: {error}", settle_book.display());
    let mut command = Command::new(settle_book);
    let mut child = command
        .stdin(Stdio::piped())
        .stdout(Stdio::piped())
        .spawn()
        .map_err(told)?;
    let mut input = child.stdin.take().expect("a pipe");
    input.write_all(book).map_err(told)?;
    let peak = peak_of_sleeping(child.id())?;
    drop(input);
    let output = child.wait_with_output().map_err(told)?;
    if output.stdout != settle_book_text(book).into_bytes() {
        return Err(format!(
            "{}: other text than the separate settlement's",
            settle_book.display()
        ));
    }
    Ok(peak)
}
