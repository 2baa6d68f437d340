//! What a seeded book is settled and written with, beside its bytes: the lent
//! memory, and the parts that writing is given.

/// The value before the call of each lent byte, no two neighbours alike.
pub fn lent_bytes(length: usize) -> Vec<u8> {
    (0..length).map(|place| (place * 37 + 11) as u8).collect()
}

/// The length of result that a book's settling is lent: 64 mostly, and its
/// neighbours.
pub fn result_length(number: u64) -> usize {
    match number % 17 {
        0 => 63,
        1 => 65,
        2 => 0,
        _ => 64,
    }
}

/// What the two calls of writing are given.
#[derive(Clone, Copy, Debug, PartialEq, Eq)]
pub struct ToWrite<'a> {
    /// The head value.
    pub head: &'a [u8],
    /// The calendar value.
    pub calendar: &'a [u8],
    /// The tag of the point.
    pub tag: u8,
    /// The value of the point.
    pub value: &'a [u8],
    /// The lent bytes of each call.
    pub room: usize,
}

/// Numbers of lent bytes around those that are due: 53, 75 and 5,978.
const ROOMS: [usize; 11] = [52, 53, 54, 60, 74, 75, 76, 90, 5_977, 5_978, 6_000];

/// What stands in a book where head, calendar and first point are due, as far
/// as it reaches, sometimes a byte less or more, and lent bytes around the
/// lengths that are due.
pub fn to_write(book: &[u8], number: u64) -> ToWrite<'_> {
    let tag = book.get(53).copied().unwrap_or(4);
    let (head_end, calendar_end, value_end) = ends(number, tag);
    ToWrite {
        head: book.get(3..head_end).unwrap_or(&[]),
        calendar: book.get(23..calendar_end).unwrap_or(book),
        tag,
        value: book.get(56..value_end.min(book.len())).unwrap_or(&[]),
        room: ROOMS[(number % 11) as usize],
    }
}

/// Where the three values to write end in a book.
fn ends(number: u64, tag: u8) -> (usize, usize, usize) {
    let value_end = match tag {
        3 => 56 + 5_975,
        5 => 56 + 72,
        _ => 56 + 50,
    };
    match number % 13 {
        0 => (19, 53, value_end),
        1 => (21, 53, value_end),
        2 => (20, 52, value_end),
        3 => (20, 54, value_end),
        4 => (20, 53, value_end - 1),
        5 => (20, 53, value_end + 1),
        _ => (20, 53, value_end),
    }
}
