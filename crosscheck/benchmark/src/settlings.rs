//! The three passes over a book that are timed beside each other.

use settlement::book;
use settlement::limits::RESULT_LENGTH;

extern "C" {
    fn tembuyas_settle_book(
        book: *const u8,
        book_length: usize,
        result: *mut u8,
        result_length: usize,
    ) -> u32;
    fn plain_pass(bytes: *const u8, length: usize) -> u64;
}

/// The answer of a settlement and its result bytes.
pub type Answer = (u32, [u8; RESULT_LENGTH]);

/// The proved ledger, through its C interface.
pub fn proved(book: &[u8]) -> Answer {
    let mut result = [0; RESULT_LENGTH];
    let refusal = unsafe {
        tembuyas_settle_book(
            book.as_ptr(),
            book.len(),
            result.as_mut_ptr(),
            RESULT_LENGTH,
        )
    };
    (refusal, result)
}

/// The separate settlement.
pub fn separate(book: &[u8]) -> Answer {
    let mut result = [0; RESULT_LENGTH];
    (book::settle(book, &mut result), result)
}

/// The sum of the book's words.
pub fn plain(book: &[u8]) -> u64 {
    unsafe { plain_pass(book.as_ptr(), book.len()) }
}

/// What the plain pass must give.
fn sum_of_words(book: &[u8]) -> u64 {
    let words = book
        .chunks_exact(4)
        .map(|word| u32::from_be_bytes([word[0], word[1], word[2], word[3]]));
    words.map(u64::from).sum()
}

/// Both settlements accept the book with the same figures, and the plain pass reads all of it.
pub fn check(book: &[u8]) -> Result<(), String> {
    let (found, expected) = (proved(book), separate(book));
    if expected.0 != 0 {
        return Err(format!(
            "the separate settlement refuses the book with {}",
            expected.0
        ));
    }
    if found != expected {
        return Err("the proved ledger gives other figures than the separate settlement".into());
    }
    if plain(book) != sum_of_words(book) {
        return Err("the plain pass gives another sum".into());
    }
    Ok(())
}
