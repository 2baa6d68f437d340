//! "Whole book": reading a book field by field and settling it.

use crate::ledger::{add, close, open, Figures, State};
use crate::limits::*;
use crate::point::Kind;
use crate::refusals::*;
use crate::slots::SlotResults;
use crate::terms::whole_number;
use crate::writing::{write_head, write_point};

/// A point as it stands in a book: tag and value.
pub type PointValue<'a> = (u8, &'a [u8]);

/// The values handed on to opening and adding, in their order.
#[derive(Clone, Debug, PartialEq, Eq)]
pub struct HandedOn<'a> {
    /// The head value.
    pub head: &'a [u8],
    /// The calendar value.
    pub calendar: &'a [u8],
    /// The points' tags and values.
    pub points: Vec<PointValue<'a>>,
}

/// A book that gives 0.
#[derive(Clone, Debug, PartialEq, Eq)]
pub struct SettledBook<'a> {
    /// What the book reads back to.
    pub handed_on: HandedOn<'a>,
    /// The state after the last point.
    pub state: State,
    /// The closing figures.
    pub figures: Figures,
}

/// The part of a book not yet read.
struct Unread<'a>(&'a [u8]);

impl<'a> Unread<'a> {
    /// Tag and length of the next field; rule 31: under three bytes left.
    fn front(&self) -> Result<(u8, usize), Refusal> {
        let front = self.0.first_chunk::<FRONT_LENGTH>().ok_or(CUT)?;
        Ok((front[0], whole_number(&front[1..]) as usize))
    }

    /// The value behind the front; rule 31: value cut.
    fn value(&mut self, length: usize) -> Result<&'a [u8], Refusal> {
        let (value, rest) = self.0[FRONT_LENGTH..].split_at_checked(length).ok_or(CUT)?;
        self.0 = rest;
        Ok(value)
    }

    /// A head or calendar value: 31, 41, 1, 31.
    fn head_or_calendar(&mut self, tag_due: u8, length_due: usize) -> Result<&'a [u8], Refusal> {
        let (tag, length) = self.front()?;
        refuse_where(tag != tag_due, HEAD_OR_CALENDAR_TAG)?;
        refuse_where(length != length_due, HEAD_OR_CALENDAR_LENGTH)?;
        self.value(length)
    }

    /// A point that is due: 20, 31, 11, 12, 31.
    fn point(&mut self) -> Result<PointValue<'a>, Refusal> {
        refuse_where(self.0.is_empty(), COUNT_NOT_REACHED)?;
        let (tag, length) = self.front()?;
        Kind::of_tag(tag)?.check_length(length)?; // 11, 12
        Ok((tag, self.value(length)?))
    }
}

/// What a call gave where it answered 0, otherwise its refusal.
fn where_accepted<T>((number, given): (Refusal, T)) -> Result<T, Refusal> {
    refuse_where(number != ACCEPTED, number)?;
    Ok(given)
}

/// Reads and settles a book, field by field, up to its refusal if it has one.
pub fn settle_fields(book: &[u8]) -> Result<SettledBook<'_>, Refusal> {
    let mut unread = Unread(book);
    let head = unread.head_or_calendar(HEAD_TAG, HEAD_LENGTH)?;
    let calendar = unread.head_or_calendar(CALENDAR_TAG, CALENDAR_LENGTH)?;
    let mut state = where_accepted(open(head, calendar))?;
    let mut points = Vec::new();
    while state.points < state.terms.head.count {
        let (tag, value) = unread.point()?;
        let mut results: SlotResults = [0; WINDOW_SLOTS];
        let added = add(&state, tag, value, &mut results);
        state = where_accepted((added.refusal, added.state))?;
        points.push((tag, value));
    }
    refuse_where(!unread.0.is_empty(), BYTES_AFTER_LAST_POINT)?;
    let figures = where_accepted(close(&state))?;
    Ok(SettledBook {
        handed_on: HandedOn {
            head,
            calendar,
            points,
        },
        state,
        figures,
    })
}

/// The whole book call: 40 before everything, then the refusals of reading.
/// The result is written only where the answer is 0.
pub fn settle(book: &[u8], result: &mut [u8]) -> Refusal {
    if result.len() != RESULT_LENGTH {
        return LENT_BYTES;
    }
    match settle_fields(book) {
        Ok(settled) => {
            let words = settled.figures.words().map(i64::to_be_bytes);
            result.copy_from_slice(words.as_flattened());
            ACCEPTED
        }
        Err(refusal) => refusal,
    }
}

/// What a book reads back to, where it gives 0.
pub fn read_back(book: &[u8]) -> Result<HandedOn<'_>, Refusal> {
    settle_fields(book).map(|settled| settled.handed_on)
}

/// The book that writing gives for a head, a calendar and points.
pub fn written_book(values: &HandedOn) -> Result<Vec<u8>, Refusal> {
    let mut book = vec![0; WRITTEN_HEAD_LENGTH];
    where_accepted((write_head(values.head, values.calendar, &mut book), ()))?;
    for &(tag, value) in &values.points {
        let begin = book.len();
        book.resize(begin + FRONT_LENGTH + value.len(), 0);
        let told = write_point(tag, value, &mut book[begin..]);
        where_accepted((told.refusal, ()))?;
    }
    Ok(book)
}
