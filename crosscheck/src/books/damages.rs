//! Seeded damages to the bytes of a book, one function for each kind.

#![allow(clippy::ptr_arg)] // every damage has the same form

use super::random::Random;
use crate::limits::*;

/// A kind of damage.
pub type Damage = fn(&mut Random, &mut Vec<u8>);

/// All damages with their names.
pub const DAMAGES: [(&str, Damage); 11] = [
    ("cut anywhere", cut_anywhere),
    ("cut near a field's edge", cut_near_edge),
    ("cut in the first fields", cut_first_fields),
    ("bytes after the last point", bytes_after),
    ("wrong tag", wrong_tag),
    ("wrong length", wrong_length),
    ("field twice", field_twice),
    ("field left out", field_left_out),
    ("changed byte", changed_byte),
    ("bytes put in", bytes_put_in),
    ("several faults", several_faults),
];

/// Bytes of a point that are cut often: tag, length, number and what follows it,
/// a class, a baseline or a share.
pub const FIRST_OF_POINT: usize = FRONT_LENGTH + NUMBER_LENGTH + 4;

/// Where the fields of a book begin, as far as it can be cut into fields.
pub fn field_begins(book: &[u8]) -> Vec<usize> {
    let mut begins = Vec::new();
    let mut begin = 0;
    while begin + FRONT_LENGTH <= book.len() {
        begins.push(begin);
        let length = u16::from_be_bytes([book[begin + 1], book[begin + 2]]);
        begin += FRONT_LENGTH + usize::from(length);
    }
    begins
}

/// The beginning of one of the fields.
fn any_field(random: &mut Random, book: &[u8]) -> Option<usize> {
    let begins = field_begins(book);
    (!begins.is_empty()).then(|| random.one_of(&begins))
}

/// The bytes of one of the fields.
fn field_range(random: &mut Random, book: &[u8]) -> std::ops::Range<usize> {
    let begins = field_begins(book);
    if begins.is_empty() {
        return 0..0;
    }
    let place = random.place(begins.len());
    let end = begins.get(place + 1).copied().unwrap_or(book.len());
    begins[place]..end
}

/// The book ends at any byte.
pub fn cut_anywhere(random: &mut Random, book: &mut Vec<u8>) {
    book.truncate(random.place(book.len() + 1));
}

/// The book ends up to four bytes around the beginning of a field.
pub fn cut_near_edge(random: &mut Random, book: &mut Vec<u8>) {
    if let Some(begin) = any_field(random, book) {
        book.truncate((begin + random.place(9)).saturating_sub(4));
    }
}

/// The book ends at any byte of head and calendar, or at one of the first
/// [`FIRST_OF_POINT`] of a point.
pub fn cut_first_fields(random: &mut Random, book: &mut Vec<u8>) {
    book.truncate(random.place(WRITTEN_HEAD_LENGTH + FIRST_OF_POINT + 1));
}

/// Bytes follow, sometimes a whole field, sometimes zeros.
pub fn bytes_after(random: &mut Random, book: &mut Vec<u8>) {
    let field = field_range(random, book);
    let more = random.one_of(&[1, 2, 3, field.len()]);
    let mut more: Vec<u8> = book[field].iter().copied().cycle().take(more).collect();
    if random.once_in(3) {
        more.fill(0);
    }
    book.extend(more);
}

/// One field has another tag.
pub fn wrong_tag(random: &mut Random, book: &mut Vec<u8>) {
    if let Some(begin) = any_field(random, book) {
        book[begin] = random.one_of(&[0, 1, 2, 3, 4, 5, 6, 255]);
    }
}

/// One field says another length.
pub fn wrong_length(random: &mut Random, book: &mut Vec<u8>) {
    if let Some(begin) = any_field(random, book) {
        let length = u16::from_be_bytes([book[begin + 1], book[begin + 2]]);
        let near = [length.wrapping_sub(1), length.wrapping_add(1)];
        let other = random.one_of(&[0, 17, 19, 30, 50, 72, 5_975, u16::MAX, near[0], near[1]]);
        book[begin + 1..begin + FRONT_LENGTH].copy_from_slice(&other.to_be_bytes());
    }
}

/// One field stands twice.
pub fn field_twice(random: &mut Random, book: &mut Vec<u8>) {
    let field = field_range(random, book);
    let again = book[field.clone()].to_vec();
    book.splice(field.end..field.end, again);
}

/// One field is missing.
pub fn field_left_out(random: &mut Random, book: &mut Vec<u8>) {
    let field = field_range(random, book);
    book.drain(field);
}

/// One byte has another value, more often near the front.
pub fn changed_byte(random: &mut Random, book: &mut Vec<u8>) {
    if !book.is_empty() {
        let anywhere = random.place(book.len());
        let front = random.place(book.len().min(90));
        let place = random.one_of(&[anywhere, front]);
        book[place] = random.one_of(&[0, 1, 4, b'0', b'9', 128, 255]);
    }
}

/// Some bytes stand before the last ones.
pub fn bytes_put_in(random: &mut Random, book: &mut Vec<u8>) {
    let place = random.place(book.len() + 1);
    let bytes = vec![random.bits() as u8; random.place(4) + 1];
    book.splice(place..place, bytes);
}

/// Two to four of the other damages.
pub fn several_faults(random: &mut Random, book: &mut Vec<u8>) {
    for _ in 0..random.between(2, 4) {
        let (_, damage) = random.one_of(&DAMAGES[..DAMAGES.len() - 1]);
        damage(random, book);
    }
}
