//! The programs that read or write books, records and dates, run as programs.

mod common;

use common::records::{bytes, naive_report, Words};
use settlement::books::{examples, seeded_book};
use settlement::records::seeded_input;
use settlement::text::settle_book_text;
use std::fs::{self, File};
use std::io::Write;
use std::process::{Command, Output, Stdio};

const SETTLE_TEXT: &str = env!("CARGO_BIN_EXE_settle_text");
const REPORT_TEXT: &str = env!("CARGO_BIN_EXE_report_text");
const DATE_TEXT: &str = env!("CARGO_BIN_EXE_date_text");
const MAKE_BOOK: &str = env!("CARGO_BIN_EXE_make_book");
const MAKE_RECORDS: &str = env!("CARGO_BIN_EXE_make_records");

/// A program that has no input, with arguments.
fn with_arguments(program: &str, arguments: &[&str]) -> Output {
    Command::new(program).args(arguments).output().unwrap()
}

/// A program that reads an input.
fn with_input(program: &str, input: &[u8]) -> Output {
    let mut program = Command::new(program)
        .stdin(Stdio::piped())
        .stdout(Stdio::piped())
        .stderr(Stdio::piped())
        .spawn()
        .unwrap();
    program.stdin.take().unwrap().write_all(input).unwrap();
    program.wait_with_output().unwrap()
}

fn make_book(arguments: &[&str]) -> Output {
    with_arguments(MAKE_BOOK, arguments)
}

fn settle_text(book: &[u8]) -> Output {
    with_input(SETTLE_TEXT, book)
}

#[test]
fn books_by_name() {
    for (name, book) in [
        ("m", examples::example_m()),
        ("consumers", examples::consumers()),
        ("mixed_firing", examples::mixed_firing()),
        ("returning", examples::returning()),
        ("refused", examples::refused()),
    ] {
        assert_eq!(make_book(&[name]).stdout, book, "{name}");
    }
    assert_eq!(make_book(&["case", "21"]).stdout, seeded_book(21).book);
}

/// The path of a file of the folder `examples/`.
fn path_of(file: &str) -> String {
    format!("{}/../examples/{file}", env!("CARGO_MANIFEST_DIR"))
}

fn stored(file: &str) -> Vec<u8> {
    fs::read(path_of(file)).unwrap()
}

#[test]
fn stored_books_and_texts_are_made_again() {
    for name in ["m", "consumers", "mixed_firing", "returning", "refused"] {
        let book = make_book(&[name]).stdout;
        assert!(book == stored(&format!("{name}.book")), "{name}");
        let text = String::from_utf8(settle_text(&book).stdout);
        let due = String::from_utf8(stored(&format!("{name}.txt")));
        assert_eq!(text, due, "{name}");
    }
}

/// Example M; `consumers` and `mixed_firing` as their texts in `examples/` say.
#[test]
fn records_by_name() {
    let m = [3_300_000, 1_100, 0, 1_100, 1_000, 100, 1, 1];
    assert_eq!(with_arguments(MAKE_RECORDS, &["m"]).stdout, bytes(&[m]));
    // A refused book leaves no record.
    let names = ["m", "consumers", "refused", "mixed_firing"];
    let files = names.map(|name| path_of(&format!("{name}.book")));
    let [m, consumers, refused, mixed_firing] = files.each_ref().map(String::as_str);
    let books = ["books", m, consumers, refused, mixed_firing];
    let due = ["m", "consumers", "mixed_firing"].map(stored_figures);
    assert_eq!(with_arguments(MAKE_RECORDS, &books).stdout, bytes(&due));
    let case = with_arguments(MAKE_RECORDS, &["case", "21"]).stdout;
    assert_eq!(case, seeded_input(21).input);
}

/// The stored half-year: the settled example books, in the order of their names.
#[test]
fn stored_records_and_reports_are_made_again() {
    let names = [
        "both_roundings",
        "consumers",
        "m",
        "mixed_firing",
        "no_remainder",
        "returning",
    ];
    let records = bytes(&names.map(stored_figures));
    assert!(records == stored("half_year.records"));
    for name in ["half_year", "broken", "cut"] {
        let report = with_input(REPORT_TEXT, &stored(&format!("{name}.records"))).stdout;
        assert_eq!(report, stored(&format!("{name}.report")), "{name}");
    }
}

/// The words of a stored text, in the order of the result.
fn stored_figures(name: &str) -> Words {
    let text = String::from_utf8(stored(&format!("{name}.txt"))).unwrap();
    let figure = |name| {
        let value = |line: &str| line.strip_prefix(name)?.strip_prefix(' ').map(String::from);
        text.lines().find_map(value).unwrap()
    };
    let number = |name| figure(name).parse().unwrap();
    [
        number("total"),
        number("settled"),
        number("shortfall"),
        number("expected"),
        number("kept"),
        number("surplus"),
        number("points"),
        i64::from(figure("bid") == "yes"),
    ]
}

#[test]
fn other_names_are_not_known() {
    for program in [MAKE_BOOK, MAKE_RECORDS] {
        for arguments in [&[][..], &["n"], &["case"], &["case", "x"], &["m", "m"]] {
            let output = with_arguments(program, arguments);
            assert_eq!(output.status.code(), Some(2));
            assert!(output.stdout.is_empty() && !output.stderr.is_empty());
        }
    }
}

#[test]
fn text_on_standard_output() {
    for book in [
        examples::example_m(),
        examples::consumers(),
        examples::mixed_firing(),
        examples::returning(),
        examples::refused(),
        vec![],
    ] {
        let output = settle_text(&book);
        assert_eq!(output.stdout, settle_book_text(&book).as_bytes());
        assert!(output.status.success() && output.stderr.is_empty());
    }
}

/// Nothing, a record, one that breaks a rule, 501 records, a byte.
#[test]
fn report_on_standard_output() {
    let m = [3_300_000, 1_100, 0, 1_100, 1_000, 100, 1, 1];
    for records in [&[][..], &[m], &[m, [0; 8]], &[m; 501]] {
        let output = with_input(REPORT_TEXT, &bytes(records));
        let due = naive_report(&bytes(records));
        assert_eq!(String::from_utf8(output.stdout), Ok(due));
        assert!(output.status.success() && output.stderr.is_empty());
    }
    assert_eq!(with_input(REPORT_TEXT, &[0]).stdout, b"refused 53\n");
}

/// The stored output of the program every_date.
#[test]
fn every_date_on_standard_output() {
    let output = with_arguments(DATE_TEXT, &[]);
    assert!(output.stdout == stored("../crates/every_date/stdout"));
    assert!(output.status.success() && output.stderr.is_empty());
}

#[cfg(unix)]
#[test]
fn a_read_error_goes_to_standard_error() {
    for program in [SETTLE_TEXT, REPORT_TEXT] {
        let folder = File::open(env!("CARGO_MANIFEST_DIR")).unwrap();
        let output = Command::new(program).stdin(folder).output().unwrap();
        assert_eq!(output.status.code(), Some(1));
        assert!(output.stdout.is_empty() && !output.stderr.is_empty());
    }
}

#[cfg(target_os = "linux")]
#[test]
fn a_write_error_goes_to_standard_error() {
    for program in [SETTLE_TEXT, REPORT_TEXT, DATE_TEXT] {
        let full = File::create("/dev/full").unwrap();
        let mut command = Command::new(program);
        let output = command.stdin(Stdio::null()).stdout(full).output().unwrap();
        assert_eq!(output.status.code(), Some(1));
        assert!(!output.stderr.is_empty());
    }
}
