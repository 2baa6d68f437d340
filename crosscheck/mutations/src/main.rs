//! Judges every wrong settlement of `edits/`: builds it and lets it answer the
//! generated cases, until one tells it apart from the separate settlement.
//!
//!     mutations [BOOKS [NAME ..]]
//!
//! Tries the seeded books from 0 on, BOOKS of them (default 20,000), then the
//! stored calls, then seeded sequences of calls, then seeded inputs of the report,
//! then every date, and of a wrong report the inputs alone; with names, only those
//! wrong settlements.
//! Prints one row for each: its name, the rule it breaks, the case, both answers.
//! The last line has the counts. The exit status is 1 where one is told apart by
//! no case, or cannot be tried, or where the settlement without an edit is told
//! apart.

mod edits;
mod mutants;

use edits::{read_edits, Edit};
use mutants::{of_package, Shared};
use std::collections::BTreeMap;
use std::process::ExitCode;
use std::sync::atomic::{AtomicUsize, Ordering};
use std::sync::mpsc;
use std::thread;

/// How many wrong settlements were told apart, and by what.
#[derive(Default)]
struct Counts {
    by_book: u32,
    by_call: u32,
    by_sequence: u32,
    by_input: u32,
    by_date: u32,
    by_none: u32,
    not_tried: u32,
}

impl Counts {
    /// The count of the cases that begin as this one does.
    fn of_kind(&mut self, case: &str) -> &mut u32 {
        match case.split(' ').next() {
            Some("book") => &mut self.by_book,
            Some("call") => &mut self.by_call,
            Some("sequence") => &mut self.by_sequence,
            Some("input") => &mut self.by_input,
            _ => &mut self.by_date,
        }
    }

    /// Prints the row of a wrong settlement and counts it.
    fn row(&mut self, edit: &Edit, verdict: Result<String, String>) {
        let (name, rule) = (&edit.name, &edit.rule);
        match verdict {
            Ok(case) if case.is_empty() => {
                self.by_none += 1;
                println!("| {name} | {rule} | NONE | |");
            }
            Ok(case) => {
                *self.of_kind(&case) += 1;
                println!("| {name} | {rule} | {case} |");
            }
            Err(error) => {
                self.not_tried += 1;
                eprintln!("{name}: {error}");
            }
        }
    }
}

/// Judges all edits, as many at once as there are cores, and prints the rows in
/// the order of the edits.
fn judge_all(shared: &Shared, edits: &[Edit], books: u64) -> Counts {
    let next = AtomicUsize::new(0);
    let (done, verdicts) = mpsc::channel();
    let mut counts = Counts::default();
    thread::scope(|scope| {
        for _ in 0..thread::available_parallelism().map_or(1, usize::from) {
            let (next, done) = (&next, done.clone());
            scope.spawn(move || {
                while let Some((place, edit)) = take(next, edits) {
                    let verdict = shared.judge(&edit.name, Some(edit), books);
                    done.send((place, verdict))
                        .expect("the rows are printed to the end");
                }
            });
        }
        drop(done);
        let mut waiting = BTreeMap::new();
        let mut rows = edits.iter().enumerate().peekable();
        for (place, verdict) in verdicts {
            waiting.insert(place, verdict);
            while let Some(verdict) = rows.peek().and_then(|(place, _)| waiting.remove(place)) {
                let (_, edit) = rows.next().expect("peeked at");
                counts.row(edit, verdict);
            }
        }
    });
    counts
}

/// The next edit that nobody has taken.
fn take<'a>(next: &AtomicUsize, edits: &'a [Edit]) -> Option<(usize, &'a Edit)> {
    let place = next.fetch_add(1, Ordering::Relaxed);
    edits.get(place).map(|edit| (place, edit))
}

/// The wrong settlements that are asked for.
fn edits_named(names: &[String]) -> Result<Vec<Edit>, String> {
    let mut edits = read_edits(&of_package("edits"))?;
    edits.retain(|edit| names.is_empty() || names.contains(&edit.name));
    let asked = names.is_empty() || edits.len() == names.len();
    asked
        .then_some(edits)
        .ok_or("no such wrong settlement".to_string())
}

fn run(arguments: &[String]) -> Result<bool, String> {
    let (books, names) = match arguments {
        [] => (20_000, &[][..]),
        [books, names @ ..] => (books.parse().map_err(|_| "BOOKS is a number")?, names),
    };
    let edits = edits_named(names)?;
    let shared = Shared::build()?;
    let told = shared.judge("unchanged", None, books)?;
    if !told.is_empty() {
        return Err(format!("the unchanged settlement is told apart: {told}"));
    }
    println!("| Wrong settlement | Rule | Case | Answers |\n|---|---|---|---|");
    let counts = judge_all(&shared, &edits, books);
    println!(
        "{} wrong settlements, of at most {books} books, the stored calls, the seeded sequences, the seeded inputs and every date: \
         {} told apart by a book, {} by a call, {} by a sequence, {} by an input, {} by a date, {} by none, {} not tried; \
         the unchanged one by none",
        edits.len(), counts.by_book, counts.by_call, counts.by_sequence, counts.by_input, counts.by_date, counts.by_none, counts.not_tried
    );
    Ok(counts.by_none + counts.not_tried == 0)
}

fn main() -> ExitCode {
    let arguments: Vec<String> = std::env::args().skip(1).collect();
    match run(&arguments) {
        Ok(true) => ExitCode::SUCCESS,
        Ok(false) => ExitCode::FAILURE,
        Err(error) => {
            eprintln!("mutations: {error}");
            ExitCode::FAILURE
        }
    }
}
