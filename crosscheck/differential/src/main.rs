//! Settles seeded books by the proved ledger and by the separate settlement, and compares the answer and every lent byte.
//!
//!     differential [COUNT [FIRST]]
//!
//! Compares COUNT books (default 20,000) from book number FIRST (default 0) on. The last line has the count and the
//! numbers; a difference is told with the number of its book, and the exit status is 1.

use std::collections::BTreeMap;

use settlement::books::lending::{lent_bytes, result_length, to_write, ToWrite};
use settlement::books::seeded_book;
use settlement::{book, writing};

extern "C" {
    fn tembuyas_settle_book(
        book: *const u8,
        book_length: usize,
        result: *mut u8,
        result_length: usize,
    ) -> u32;
    fn tembuyas_write_head(
        head: *const u8,
        head_length: usize,
        calendar: *const u8,
        calendar_length: usize,
        out: *mut u8,
        out_length: usize,
    ) -> u32;
    fn tembuyas_write_point(
        tag: u8,
        value: *const u8,
        value_length: usize,
        out: *mut u8,
        out_length: usize,
    ) -> u64;
}

/// Bytes on both sides of lent memory, which must keep their values.
const GUARD: usize = 32;

/// A lent slice between guards, each byte with a value of its own.
struct Lent {
    bytes: Vec<u8>,
    length: usize,
}

impl Lent {
    fn new(length: usize) -> Lent {
        let bytes = lent_bytes(GUARD + length + GUARD);
        Lent { bytes, length }
    }

    fn pointer(&mut self) -> *mut u8 {
        self.bytes[GUARD..].as_mut_ptr()
    }

    fn lent(&mut self) -> &mut [u8] {
        &mut self.bytes[GUARD..GUARD + self.length]
    }
}

/// Settles a book both ways: the refusal, or what differs.
fn compare_settling(book: &[u8], length: usize) -> Result<u32, String> {
    let mut expected = Lent::new(length);
    let refusal = book::settle(book, expected.lent());
    let guarded = Guarded::new(book);
    let mut found = Lent::new(length);
    let answer =
        unsafe { tembuyas_settle_book(guarded.pointer(), book.len(), found.pointer(), length) };
    if answer != refusal {
        return Err(format!("settling answered {answer}, not {refusal}"));
    }
    if found.bytes != expected.bytes {
        return Err(format!("settling left other bytes (answer {answer})"));
    }
    if !guarded.unchanged(book) {
        return Err("settling changed the book".into());
    }
    Ok(refusal)
}

/// A book lent for reading, between guards.
struct Guarded {
    bytes: Vec<u8>,
}

impl Guarded {
    fn new(book: &[u8]) -> Guarded {
        let mut bytes = vec![0xA5; GUARD];
        bytes.extend_from_slice(book);
        bytes.extend_from_slice(&[0xA5; GUARD]);
        Guarded { bytes }
    }

    fn pointer(&self) -> *const u8 {
        self.bytes[GUARD..].as_ptr()
    }

    fn unchanged(&self, book: &[u8]) -> bool {
        let (front, rest) = self.bytes.split_at(GUARD);
        let (middle, back) = rest.split_at(book.len());
        middle == book && front.iter().chain(back).all(|&b| b == 0xA5)
    }
}

/// Writes the parts of a book both ways, into lent bytes of several lengths.
fn compare_writing(book: &[u8], number: u64) -> Result<(), String> {
    let ToWrite {
        head,
        calendar,
        tag,
        value,
        room,
    } = to_write(book, number);
    let mut expected = Lent::new(room);
    let mut found = Lent::new(room);
    let refusal = writing::write_head(head, calendar, expected.lent());
    let answer = unsafe {
        tembuyas_write_head(
            head.as_ptr(),
            head.len(),
            calendar.as_ptr(),
            calendar.len(),
            found.pointer(),
            room,
        )
    };
    if (answer, &found.bytes) != (refusal, &expected.bytes) {
        return Err(format!(
            "writing a head answered {answer}, not {refusal}, or left other bytes"
        ));
    }
    let mut expected = Lent::new(room);
    let mut found = Lent::new(room);
    let told = writing::write_point(tag, value, expected.lent());
    let answer =
        unsafe { tembuyas_write_point(tag, value.as_ptr(), value.len(), found.pointer(), room) };
    let answer = refusal_and_index(answer);
    if (answer, &found.bytes) != ((told.refusal, told.index), &expected.bytes) {
        return Err(format!(
            "writing a point answered {answer:?}, not {told:?}, or left other bytes"
        ));
    }
    Ok(())
}

/// The answer of writing a point: its low 32 bits are the refusal, its high 32
/// bits the index.
fn refusal_and_index(answer: u64) -> (u32, u32) {
    (answer as u32, (answer >> 32) as u32)
}

fn main() {
    let mut arguments = std::env::args()
        .skip(1)
        .map(|a| a.parse::<u64>().expect("a whole number"));
    let count = arguments.next().unwrap_or(20_000);
    let first = arguments.next().unwrap_or(0);
    let mut seen: BTreeMap<u32, u64> = BTreeMap::new();
    let mut differing = 0;
    for number in first..first + count {
        let book = seeded_book(number).book;
        let outcome = compare_settling(&book, result_length(number)).and_then(|refusal| {
            compare_writing(&book, number)?;
            Ok(refusal)
        });
        match outcome {
            Ok(refusal) => *seen.entry(refusal).or_default() += 1,
            Err(what) => {
                eprintln!("book {number}: {what}");
                differing += 1;
            }
        }
    }
    println!("answers seen: {seen:?}");
    println!("{count} books from {first} on compared, {differing} differ");
    if differing > 0 {
        std::process::exit(1);
    }
}
