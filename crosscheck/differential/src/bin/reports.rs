//! Runs the program report and compares its text with that of the separate settlement.
//!
//!     reports PROGRAM [COUNT [FIRST]]
//!
//! Feeds COUNT seeded inputs (default 3,000) from number FIRST (default 0) on through a pipe, which
//! must give the same text, exit status 0 and nothing on standard error; then inputs in small pieces
//! and inputs cut at every byte; then input that cannot be read and output that cannot be written:
//! such a run is told on standard error, behind the program's name, and prints no text, while its
//! exit status is free. The last line has the counts; what differs is told by name, and the exit
//! status is then 1.
//!
//! `report_text` may stand in for report. Rust opens /dev/null in place of a closed standard
//! stream, so that closed ones are not tried with it.

use std::fs::File;
use std::path::Path;
use std::process::{Child, Command, Stdio};

use settlement::records::good::at_limits;
use settlement::records::seeded_input;
use settlement::records::words::bytes_of;
use settlement::report::report_text;

#[path = "../trial.rs"]
mod trial;

use trial::{asked, fed, Asked, Trial};

impl Trial {
    /// The program prints for an input what the separate settlement says.
    fn agrees(&mut self, name: &str, input: &[u8]) {
        self.prints(name, input, &report_text(input));
    }

    /// The same where the input comes in pieces of so many bytes.
    fn agrees_in_pieces(&mut self, name: &str, input: &[u8], piece: usize) {
        let name = format!("{name} in pieces of {piece}");
        self.prints_in_pieces(&name, input, &report_text(input), piece, 1);
    }

    /// The program's own name.
    fn name(&self) -> String {
        let name = Path::new(&self.program).file_name();
        name.expect("a program").to_string_lossy().into_owned()
    }

    /// A run that cannot read or write prints no text and tells so on standard error.
    fn complains(&mut self, name: &str, child: Child) {
        let output = child.wait_with_output().expect("the program ends");
        let told = String::from_utf8_lossy(&output.stderr);
        let begins = told.starts_with(&format!("{}: ", self.name()));
        let differences = [
            (output.status.code().is_none(), "ended by a signal"),
            (!output.stdout.is_empty(), "something on standard output"),
            (!begins, "not told on standard error"),
        ];
        self.count(name, &differences);
    }

    /// Reads that give fewer bytes than there are, and inputs that end early.
    fn short_reads(&mut self) {
        let limits = bytes_of(&at_limits());
        let (few, five_hundred) = (&limits[..192], &limits[..32_000]);
        self.agrees_in_pieces("three records", few, 1);
        for piece in [63, 64, 65, 1_000, 4_096, 31_999] {
            self.agrees_in_pieces("five hundred records", five_hundred, piece);
        }
        for (name, end) in [("500 records and a byte", 32_001), ("501 records", 32_064)] {
            for piece in [64, 1_000, 32_000] {
                self.agrees_in_pieces(name, &limits[..end], piece);
            }
        }
        for end in 0..few.len() {
            self.agrees(&format!("three records cut at byte {end}"), &few[..end]);
        }
    }

    /// Input that cannot be read, output that cannot be written.
    fn failing_calls(&mut self, good: &[u8]) {
        let command = &mut Command::new(&self.program);
        let folder = File::open(".").expect("a folder");
        let child = Self::start(command, folder, Stdio::piped());
        self.complains("a folder as input", child);
        for (name, input) in one_for_each_answer(good) {
            let full = File::create("/dev/full").expect("a full device");
            let child = Self::start(command, Stdio::piped(), full);
            self.complains(&format!("{name}, output full"), fed(child, &input));
        }
        if self.name() == "report_text" {
            println!("closed streams are not tried with report_text");
            return;
        }
        let child = self.closed("<&-", Stdio::null());
        self.complains("closed input", child);
        for (name, input) in one_for_each_answer(good) {
            let child = self.closed(">&-", Stdio::piped());
            self.complains(&format!("{name}, closed output"), fed(child, &input));
        }
    }
}

/// An input for each answer there is, from a good record.
fn one_for_each_answer(good: &[u8]) -> [(&'static str, Vec<u8>); 4] {
    [
        ("no records", vec![]),
        ("a record", good.to_vec()),
        ("a record cut", good[1..].to_vec()),
        ("a record of zeros", vec![0; good.len()]),
    ]
}

fn main() {
    let Asked {
        mut trial,
        count,
        first,
    } = asked(3_000);
    for number in first..first + count {
        let seeded = seeded_input(number);
        trial.agrees(&format!("input {number} ({})", seeded.kind), &seeded.input);
    }
    trial.short_reads();
    trial.failing_calls(&bytes_of(&at_limits()[..1]));
    trial.end(count, &format!("inputs from {first} on"));
}
