//! Holds a wrong settlement against the separate settlement, case by case.
//!
//! Every case is made and answered by the unchanged settlement; the wrong one
//! only answers it. Cases are books, single calls, sequences of calls, inputs of
//! the report, and every date.

#![forbid(unsafe_code)]
#![warn(missing_docs)]

mod sequences;

pub use sequences::{word_of, Alteration};
pub use settlement::books::sequences::Sequence;
pub use settlement::demand3::Call;

use sequences::told_by_sequence;
use settlement::books::lending::{lent_bytes, result_length, to_write};
use settlement::books::{seeded_book, SeededBook};
use settlement::calls::vectors::stored_calls;
use settlement::limits::RESULT_LENGTH;
use settlement::records::seeded_input;
use std::io::{self, Write};
use std::panic::{self, AssertUnwindSafe};
use std::process::ExitCode;

/// The answers that are compared.
pub trait Answers {
    /// The whole book call.
    fn settle(&self, book: &[u8], result: &mut [u8]) -> u32;
    /// Writing a head with its calendar.
    fn write_head(&self, head: &[u8], calendar: &[u8], lent: &mut [u8]) -> u32;
    /// Writing a point: the number and the index.
    fn write_point(&self, tag: u8, value: &[u8], lent: &mut [u8]) -> (u32, u32);
    /// What settle_book prints for a book.
    fn text(&self, book: &[u8]) -> String;
    /// The answers to single calls, given in the form of docs/VECTORS.md.
    fn calls(&self, calls: &[u8]) -> String;
    /// Whether demand 3 holds of a sequence and its own program, altered.
    fn demand3(&self, given: &Sequence, altered: &Alteration) -> String;
    /// What the exact account answers to a sequence.
    fn account(&self, given: &Sequence) -> String;
    /// What the program report prints for an input.
    fn report(&self, input: &[u8]) -> String;
    /// What the program every_date prints.
    fn every_date(&self) -> String;
}

/// The answers of a crate with the modules of the separate settlement.
#[macro_export]
macro_rules! answers_of {
    ($name:ident, $settlement:ident) => {
        struct $name;

        impl $crate::Answers for $name {
            fn settle(&self, book: &[u8], result: &mut [u8]) -> u32 {
                $settlement::book::settle(book, result)
            }

            fn write_head(&self, head: &[u8], calendar: &[u8], lent: &mut [u8]) -> u32 {
                $settlement::writing::write_head(head, calendar, lent)
            }

            fn write_point(&self, tag: u8, value: &[u8], lent: &mut [u8]) -> (u32, u32) {
                let told = $settlement::writing::write_point(tag, value, lent);
                (told.refusal, told.index)
            }

            fn text(&self, book: &[u8]) -> String {
                $settlement::text::settle_book_text(book)
            }

            fn calls(&self, calls: &[u8]) -> String {
                let (calls, _) = $settlement::calls::read_calls(calls);
                calls.iter().map(|call| call.answer().1).collect()
            }

            fn demand3(&self, given: &$crate::Sequence, altered: &$crate::Alteration) -> String {
                let calls: Vec<_> = given.calls.iter().map(call_of).collect();
                let program = Altered(altered);
                let held = $settlement::demand3::demand3_of;
                match held(&program, &given.head, &given.calendar, &calls) {
                    Ok(_) => "holds".to_string(),
                    Err(breach) => format!("fails at call {}: {}", breach.call, breach.what),
                }
            }

            fn account(&self, given: &$crate::Sequence) -> String {
                let opened = $settlement::account::Account::opening;
                let mut account = opened(&given.head, &given.calendar);
                let mut answers = $crate::word_of("opening", account.terms());
                for call in &given.calls {
                    answers += &match call {
                        $crate::Call::Adding { tag, value, places } => {
                            let taken = account.adding(*tag, value, *places);
                            let word = $crate::word_of(" adding", taken);
                            format!("{word} points {}", account.points())
                        }
                        $crate::Call::Closing => {
                            let exact = account.closing();
                            let word = $crate::word_of(" closing", exact);
                            format!("{word} shortfall {}", exact.unwrap_or(0))
                        }
                    };
                }
                answers
            }

            fn report(&self, input: &[u8]) -> String {
                $settlement::report::report_text(input)
            }

            fn every_date(&self) -> String {
                $settlement::every_date::every_date_text()
            }
        }

        /// A call of a sequence, as this crate has it.
        fn call_of(call: &$crate::Call) -> $settlement::demand3::Call {
            match call {
                $crate::Call::Adding { tag, value, places } => $settlement::demand3::Call::Adding {
                    tag: *tag,
                    value: value.clone(),
                    places: *places,
                },
                $crate::Call::Closing => $settlement::demand3::Call::Closing,
            }
        }

        /// The program of this crate, altered.
        struct Altered<'a>(&'a $crate::Alteration);

        impl $settlement::demand3::Program for Altered<'_> {
            fn open(&self, head: &[u8], calendar: &[u8]) -> (u32, $settlement::ledger::State) {
                let (number, state) = $settlement::ledger::open(head, calendar);
                (self.0.number_told(number), state)
            }

            fn add(
                &self,
                state: &$settlement::ledger::State,
                tag: u8,
                value: &[u8],
                places: &mut [i64],
            ) -> $settlement::ledger::Added {
                let mut added = $settlement::ledger::add(state, tag, value, places);
                added.refusal = self.0.number_told(added.refusal);
                added
            }

            fn close(
                &self,
                state: &$settlement::ledger::State,
            ) -> (u32, $settlement::ledger::Figures) {
                let (number, mut figures) = $settlement::ledger::close(state);
                figures.shortfall += self.0.shortfall_more;
                (self.0.number_told(number), figures)
            }
        }
    };
}

answers_of!(Unchanged, settlement);

/// The names of the words of a result.
const RESULT_NAMES: [&str; 8] = [
    "total",
    "settled",
    "shortfall",
    "expected",
    "kept",
    "surplus",
    "points",
    "bid",
];

/// What one call gave: its name and number in words, the lent bytes.
#[derive(PartialEq, Eq)]
struct Given(String, Vec<u8>);

impl Given {
    /// Names and values, in words.
    fn words(&self) -> String {
        let Given(numbers, lent) = self;
        let mut words = numbers.clone();
        if lent.len() == RESULT_LENGTH {
            for (name, word) in RESULT_NAMES.iter().zip(lent.as_chunks().0) {
                words += &format!(" {name} {}", i64::from_be_bytes(*word));
            }
        } else {
            for (place, byte) in lent.iter().enumerate() {
                words += &format!(" byte-{place} {byte}");
            }
        }
        words
    }

    fn what_differs(&self, found: &Given) -> String {
        value_that_differs(&self.words(), &found.words())
    }
}

fn settling(by: &dyn Answers, book: &[u8], number: u64) -> Given {
    let mut result = lent_bytes(result_length(number));
    let refusal = by.settle(book, &mut result);
    Given(format!("settling {refusal}"), result)
}

fn writing_head(by: &dyn Answers, book: &[u8], number: u64) -> Given {
    let given = to_write(book, number);
    let mut lent = lent_bytes(given.room);
    let refusal = by.write_head(given.head, given.calendar, &mut lent);
    Given(format!("writing-head {refusal}"), lent)
}

fn writing_point(by: &dyn Answers, book: &[u8], number: u64) -> Given {
    let given = to_write(book, number);
    let mut lent = lent_bytes(given.room);
    let (refusal, index) = by.write_point(given.tag, given.value, &mut lent);
    Given(format!("writing-point {refusal} index {index}"), lent)
}

/// The first line that differs.
fn line_that_differs(due: &str, found: &str) -> String {
    let differs = |(due, found): (&str, &str)| {
        (due != found).then(|| format!("printing {found} instead of {due}"))
    };
    let mut lines = due.lines().zip(found.lines());
    lines
        .find_map(differs)
        .unwrap_or("printing more or fewer lines".to_string())
}

/// The first value that differs, after its name.
fn value_that_differs(due: &str, found: &str) -> String {
    let (mut name, mut found) = ("", found.split_whitespace());
    for due in due.split_whitespace() {
        let found = found.next().unwrap_or("nothing");
        if found != due {
            return format!("{name} {found} instead of {due}");
        }
        if due.starts_with(char::is_alphabetic) {
            name = due;
        }
    }
    format!("{name} and more words")
}

/// What a wrong settlement gave for something, or `panics`.
fn guarded<T>(give: impl FnOnce() -> T) -> Result<T, String> {
    panic::catch_unwind(AssertUnwindSafe(give)).map_err(|_| "panics".to_string())
}

/// What differs between two answers, if they differ.
fn compare<T: PartialEq>(
    due: T,
    found: impl FnOnce() -> T,
    what_differs: impl FnOnce(&T, &T) -> String,
) -> Result<(), String> {
    let found = guarded(found)?;
    if found == due {
        Ok(())
    } else {
        Err(what_differs(&due, &found))
    }
}

/// What differs between the answers for a seeded book, if they differ.
fn compare_book(wrong: &dyn Answers, book: &[u8], number: u64) -> Result<(), String> {
    for call in [settling, writing_head, writing_point] {
        let given = |by| call(by, book, number);
        compare(given(&Unchanged), || given(wrong), Given::what_differs)?;
    }
    compare_text(|by| by.text(book), wrong)
}

/// What differs between two printed texts, if they differ.
fn compare_text(text: impl Fn(&dyn Answers) -> String, wrong: &dyn Answers) -> Result<(), String> {
    let what = |due: &String, found: &String| line_that_differs(due, found);
    compare(text(&Unchanged), || text(wrong), what)
}

/// The kind of a book and its damage.
fn shape(seeded: &SeededBook) -> String {
    match seeded.damage {
        Some(damage) => format!("{}, {damage}", seeded.kind),
        None => seeded.kind.to_string(),
    }
}

/// The first of so many seeded books that tells a wrong settlement apart.
fn told_by_book(wrong: &dyn Answers, books: u64) -> Option<String> {
    (0..books).find_map(|number| {
        let seeded = seeded_book(number);
        let differs = compare_book(wrong, &seeded.book, number).err()?;
        Some(format!("book {number} ({}) | {differs}", shape(&seeded)))
    })
}

/// The first of the stored calls that tells a wrong settlement apart.
fn told_by_call(wrong: &dyn Answers) -> Option<String> {
    (1..).zip(stored_calls()).find_map(|(number, call)| {
        let bytes = call.bytes();
        let answer = |by: &dyn Answers| by.calls(&bytes);
        let what = |due: &String, found: &String| value_that_differs(due, found);
        let differs = compare(answer(&Unchanged), || answer(wrong), what).err()?;
        Some(format!("call {number} | {differs}"))
    })
}

/// So many inputs of the report are tried, from 0 on.
const INPUTS: u64 = 3_000;

/// The first input of the report that tells a wrong settlement apart.
fn told_by_input(wrong: &dyn Answers) -> Option<String> {
    (0..INPUTS).find_map(|number| {
        let seeded = seeded_input(number);
        let differs = compare_text(|by| by.report(&seeded.input), wrong).err()?;
        Some(format!("input {number} ({}) | {differs}", seeded.kind))
    })
}

/// The first date whose line differs, and what is said of it.
fn date_that_differs(due: &str, found: &str) -> String {
    let mut lines = due.lines().zip(found.lines());
    match lines.find(|(due, found)| due != found) {
        Some((due, found)) => {
            let (date, due) = due.split_once(' ').unwrap_or((due, "nothing"));
            let found = found.strip_prefix(date).unwrap_or(found).trim_start();
            format!("date {date} | {found} instead of {due}")
        }
        None => "date text | more or fewer lines".to_string(),
    }
}

/// The first date that tells a wrong settlement apart. The text is made in one go,
/// so that a panic has no date.
fn told_by_date(wrong: &dyn Answers) -> Option<String> {
    let due = Unchanged.every_date();
    match guarded(|| wrong.every_date()) {
        Ok(found) => (found != due).then(|| date_that_differs(&due, &found)),
        Err(panics) => Some(format!("date text | {panics}")),
    }
}

/// The first case that tells a wrong settlement apart: books before calls before
/// sequences before inputs of the report before dates.
fn told_by_any(wrong: &dyn Answers, books: u64) -> Option<String> {
    told_by_book(wrong, books)
        .or_else(|| told_by_call(wrong))
        .or_else(|| told_by_sequence(wrong))
        .or_else(|| told_by_input(wrong))
        .or_else(|| told_by_date(wrong))
}

/// The argument of a program that answers the inputs of the report alone.
pub const REPORT_ALONE: &str = "report";

/// What a wrong settlement's program does: prints the first case that tells it
/// apart, or nothing. The program's argument is the number of books, or that the
/// inputs of the report alone are tried.
pub fn judge(wrong: &dyn Answers) -> ExitCode {
    let asked = std::env::args().nth(1).unwrap_or_default();
    panic::set_hook(Box::new(|_| {})); // a panic is an answer here
    let told = if asked == REPORT_ALONE {
        told_by_input(wrong)
    } else {
        let Ok(books) = asked.parse() else {
            eprintln!("a number of books is due, or the word {REPORT_ALONE}");
            return ExitCode::from(2);
        };
        told_by_any(wrong, books)
    };
    match io::stdout().write_all(told.unwrap_or_default().as_bytes()) {
        Ok(()) => ExitCode::SUCCESS,
        Err(error) => {
            eprintln!("{error}");
            ExitCode::FAILURE
        }
    }
}
