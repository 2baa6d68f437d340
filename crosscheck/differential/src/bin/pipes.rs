//! Runs the program settle_book and compares its text with that of the separate settlement.
//!
//!     pipes PROGRAM [COUNT [FIRST]]
//!
//! Feeds COUNT seeded books (default 1,000) from number FIRST (default 0) on through a pipe; then
//! the longest books, alone and with a byte behind them, a book in small pieces, a book cut at every
//! byte; then input that cannot be read and output that cannot be written. Every run must end with
//! exit status 0. The last line has the counts; what differs is told by name, and the exit status
//! is then 1.

use std::fs::File;
use std::process::{Child, Command, Stdio};

use settlement::books::examples::{consumer_of_example_h, consumers, example_m, mixed_firing};
use settlement::books::fields::{GeneratorFields, Head, List, MixedFiringFields, PointFields};
use settlement::books::seeded_book;
use settlement::limits::{HIGHEST_COUNT, WRITTEN_HEAD_LENGTH};
use settlement::text::settle_book_text;

#[path = "../trial.rs"]
mod trial;

use trial::{asked, fed, Asked, Trial};

/// A book of so many points.
fn long_book(points: u32, point: fn(u32) -> PointFields) -> Vec<u8> {
    let mut list = List::new(Head::EXAMPLE_M);
    (1..=points).for_each(|number| list.push(point(number)));
    list.book()
}

fn generator(number: u32) -> PointFields {
    let fields = GeneratorFields::flat(u128::from(number), number % 5, number * 13);
    PointFields::Generator(fields)
}

fn consumer(number: u32) -> PointFields {
    PointFields::Consumer(consumer_of_example_h(
        u128::from(number),
        number * 7 % 3_000,
    ))
}

fn plant(number: u32) -> PointFields {
    let share = (number % 1_001) as u16;
    let fields = MixedFiringFields::flat(u128::from(number), share, number * 13, number * 7);
    PointFields::MixedFiring(fields)
}

/// Every tenth point is a consumer, every third of the others a mixed-firing plant.
fn mixed(number: u32) -> PointFields {
    match number % 10 {
        0 => consumer(number),
        3 | 6 | 9 => plant(number),
        _ => generator(number),
    }
}

impl Trial {
    /// The program prints for a book what the separate settlement says.
    fn agrees(&mut self, name: &str, book: &[u8]) {
        self.prints(name, book, &settle_book_text(book));
    }

    /// A book that is settled, and refused with 42 where one byte more comes.
    fn settles_alone(&mut self, name: &str, mut book: Vec<u8>) {
        self.agrees(name, &book);
        book.push(0);
        self.prints(&format!("{name} and a byte"), &book, "refused 42\n");
    }

    /// A run that cannot read or write prints no text and tells so on standard error.
    fn complains(&mut self, name: &str, child: Child) {
        let output = child.wait_with_output().expect("the program ends");
        let differences = [
            (
                output.status.code() != Some(0),
                "another exit status than 0",
            ),
            (!output.stdout.is_empty(), "something on standard output"),
            (output.stderr.is_empty(), "nothing on standard error"),
        ];
        self.count(name, &differences);
    }

    fn long_books(&mut self) {
        self.settles_alone("book of 700 points", long_book(700, mixed));
        let kinds: [(&str, fn(u32) -> PointFields); 4] = [
            ("points", mixed),
            ("generators", generator),
            ("plants", plant),
            ("consumers", consumer),
        ];
        for (kind, point) in kinds {
            let book = long_book(HIGHEST_COUNT, point);
            self.settles_alone(&format!("book of {HIGHEST_COUNT} {kind}"), book);
        }
    }

    /// Reads that give fewer bytes than are due, and books that end early.
    fn short_reads(&mut self) {
        let (m, mixed_firing, consumers) = (example_m(), mixed_firing(), consumers());
        self.prints_in_pieces("byte by byte", &m, &settle_book_text(&m), 1, 1);
        let text = settle_book_text(&consumers);
        self.prints_in_pieces("pieces of 1,000 bytes", &consumers, &text, 1_000, 1);
        self.prints("empty input", &[], "refused 31\n");
        for end in 1..m.len() {
            self.agrees(&format!("example M cut at byte {end}"), &m[..end]);
        }
        for end in WRITTEN_HEAD_LENGTH..mixed_firing.len() {
            let name = format!("mixed-firing plants cut at byte {end}");
            self.agrees(&name, &mixed_firing[..end]);
        }
    }

    /// Input that cannot be read, output that cannot be written.
    fn failing_calls(&mut self) {
        let command = &mut Command::new(&self.program);
        let folder = File::open(".").expect("a folder");
        let child = Self::start(command, folder, Stdio::piped());
        self.complains("a folder as input", child);
        let child = self.closed("<&-", Stdio::null());
        self.complains("closed input", child);
        for (name, book) in [("settled", example_m()), ("refused", vec![])] {
            let full = File::create("/dev/full").expect("a full device");
            let child = Self::start(command, Stdio::piped(), full);
            self.complains(&format!("{name}, output full"), fed(child, &book));
            let child = self.closed(">&-", Stdio::piped());
            self.complains(&format!("{name}, closed output"), fed(child, &book));
        }
    }
}

fn main() {
    let Asked {
        mut trial,
        count,
        first,
    } = asked(1_000);
    for number in first..first + count {
        trial.agrees(&format!("book {number}"), &seeded_book(number).book);
    }
    trial.long_books();
    trial.short_reads();
    trial.failing_calls();
    trial.end(count, &format!("books from {first} on"));
}
