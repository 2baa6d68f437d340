//! The time of the proved ledger: `benchmark SETTLE_BOOK FOLDER`, with the path of the program settle_book and a folder
//! for its books. crosscheck/benchmark/run builds both and starts it; docs/BENCHMARKS.md says what is measured.
//!
//! An error ends the run with exit status 1. A goal that is missed is told and is no error.

mod books;
mod machine;
mod program;
mod report;
mod settlings;
mod shelf;
mod timing;

use std::path::{Path, PathBuf};
use std::process::ExitCode;

use books::{Kind, DROPPING, GENERATORS, ORDINARY, RETURNING};
use shelf::Shelf;

/// Points of the books.
const SIZES: [u32; 4] = [1_000, 2_500, 5_000, 10_000];
const FEWEST: u32 = SIZES[0];
const MOST: u32 = SIZES[3];
const TURNS: usize = 60;
/// The system counts the memory of a process by more or fewer pages from run to run: the least of so many runs counts.
const MEMORY_RUNS: usize = 9;

/// Books of a kind in the sizes given. The sizes take turns too, so that what slows the machine slows them all.
fn measure(kind: &Kind, sizes: &[u32]) -> Result<Vec<Shelf>, String> {
    let shelves: Result<Vec<Shelf>, String> = sizes
        .iter()
        .map(|&points| Shelf::new(kind, points))
        .collect();
    let mut shelves = shelves?;
    let mut desk = shelf::desk(&shelves);
    for _ in 0..TURNS {
        shelves.iter_mut().for_each(|shelf| shelf.turn(&mut desk));
    }
    report::print_table(kind, &shelves);
    Ok(shelves)
}

/// Writes a book of a kind to a file of the folder: its path and its length.
fn write_book(folder: &Path, kind: &Kind, points: u32) -> Result<(PathBuf, usize), String> {
    let path = folder.join(format!("{}.{points}", kind.name));
    let book = (kind.list)(points).book();
    std::fs::write(&path, &book).map_err(|error| format!("{}: {error}", path.display()))?;
    Ok((path, book.len()))
}

/// settle_book beside `cat` on the largest ordinary book.
fn measure_program(settle_book: &Path, folder: &Path) -> Result<(), String> {
    let (path, bytes) = write_book(folder, &ORDINARY, MOST)?;
    let (settling, copying) = program::beside_cat(settle_book, &path, TURNS)?;
    report::print_program(bytes, &settling, &copying);
    Ok(())
}

/// The peak memory of settle_book for the smallest and the largest ordinary book, in kB.
fn measure_memory(settle_book: &Path) -> Result<[u64; 2], String> {
    let peak = |points| -> Result<u64, String> {
        let book = (ORDINARY.list)(points).book();
        let runs = (0..MEMORY_RUNS).map(|_| program::peak_memory(settle_book, &book));
        let peaks = runs.collect::<Result<Vec<u64>, String>>()?;
        peaks.into_iter().min().ok_or("no run".into())
    };
    let peaks = [peak(FEWEST)?, peak(MOST)?];
    report::print_memory([FEWEST, MOST], peaks);
    Ok(peaks)
}

fn run(settle_book: &Path, folder: &Path) -> Result<(), String> {
    machine::print()?;
    // for the counts of instructions in docs/BENCHMARKS.md
    write_book(folder, &ORDINARY, FEWEST)?;
    write_book(folder, &DROPPING, FEWEST)?;
    write_book(folder, &RETURNING, FEWEST)?;
    let ordinary = measure(&ORDINARY, &SIZES)?;
    let dropping = measure(&DROPPING, &SIZES)?;
    measure(&RETURNING, &SIZES)?;
    measure(&GENERATORS, &[MOST])?;
    measure_program(settle_book, folder)?;
    let memory = measure_memory(settle_book)?;
    report::print_goals(&ordinary, &dropping, memory);
    Ok(())
}

fn main() -> ExitCode {
    let paths: Vec<PathBuf> = std::env::args_os().skip(1).map(PathBuf::from).collect();
    let [settle_book, folder] = &paths[..] else {
        eprintln!("usage: benchmark SETTLE_BOOK FOLDER");
        return ExitCode::from(2);
    };
    match run(settle_book, folder) {
        Ok(()) => ExitCode::SUCCESS,
        Err(what) => {
            eprintln!("benchmark: {what}");
            ExitCode::FAILURE
        }
    }
}
