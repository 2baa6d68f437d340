//! The refusal numbers ("Operations and their refusals"), each named once.
//!
//! The rising order of the numbers is the order of each table, but for 50,
//! which stands at the place of 16, for 51 and 52, which stand at that of 17,
//! and for the whole book, whose order stands in `book.rs`. 17 is given by
//! nothing.

/// The number a call answers; a refusal is any of them but [`ACCEPTED`].
pub type Refusal = u32;

/// The call is accepted.
pub const ACCEPTED: Refusal = 0;

/// Opening: head not 17 or calendar not 30 bytes.
pub const HEAD_OR_CALENDAR_LENGTH: Refusal = 1;
/// Opening: no such date in range.
pub const NO_SUCH_DATE: Refusal = 2;
/// Opening: Saturday or Sunday.
pub const WEEKEND: Refusal = 3;
/// Opening: s not 18 to 34.
pub const FIRST_SLOT: Refusal = 4;
/// Opening: a loss above 5,000.
pub const LOSS: Refusal = 5;
/// Opening: contract neither 0 nor 1,000 to 10,000,000.
pub const CONTRACT: Refusal = 6;
/// Opening: count not 1 to 10,000.
pub const COUNT: Refusal = 7;
/// Opening: a mark above 3.
pub const MARK: Refusal = 8;

/// Adding and closing: a state that no accepted call can have given.
pub const STATE: Refusal = 9;
/// Adding: count already reached.
pub const COUNT_REACHED: Refusal = 10;
/// Adding: tag not 3, 4 or 5.
pub const POINT_TAG: Refusal = 11;
/// Adding: length not that of the tag.
pub const POINT_LENGTH: Refusal = 12;
/// Adding: not six places.
pub const PLACES: Refusal = 13;
/// Adding: number not 22 digits, or all nines.
pub const NUMBER: Refusal = 14;
/// Adding: number not above the last.
pub const NOT_ABOVE_LAST: Refusal = 15;
/// Adding: class not 1 to 3, or baseline above 1,000,000.
pub const CLASS_OR_BASELINE: Refusal = 16;
/// Adding: share above 1,000, at the place of 16.
pub const SHARE: Refusal = 50;
/// Adding: the first reading above 1,000,000,000 is one of a consumer's test day
/// or of a point of another kind; at the place of 17.
pub const READING: Refusal = 51;
/// Adding: the first reading above 1,000,000,000 is one of a consumer's days
/// back; at the place of 17.
pub const READING_OF_A_DAY_BACK: Refusal = 52;
/// Adding: fewer than four eligible days.
pub const TOO_FEW_DAYS: Refusal = 18;

/// Closing: count not reached. Whole book: no byte left where a point is due.
pub const COUNT_NOT_REACHED: Refusal = 20;

/// Whole book: under three bytes left, or value cut.
pub const CUT: Refusal = 31;
/// Writing: too few bytes. Whole book: not 64 bytes.
pub const LENT_BYTES: Refusal = 40;
/// Whole book: wrong tag for head or calendar.
pub const HEAD_OR_CALENDAR_TAG: Refusal = 41;
/// Whole book: bytes after the last point.
pub const BYTES_AFTER_LAST_POINT: Refusal = 42;

/// Report: length no multiple of 64, or above 500 records.
pub const RECORDS: Refusal = 53;
/// Report: a record that breaks a closing rule.
pub const RECORD: Refusal = 54;

/// The index in every answer that concerns no reading.
pub const NO_INDEX: u32 = 0;

/// What adding and writing a point answer about the point: a number, and the
/// index of the reading that it concerns (change request 3).
#[derive(Clone, Copy, Debug, PartialEq, Eq)]
pub struct Told {
    /// The number.
    pub refusal: Refusal,
    /// The index of the first reading concerned, for 51 and 52.
    pub index: u32,
}

impl From<Refusal> for Told {
    /// A number that concerns no reading.
    fn from(refusal: Refusal) -> Told {
        Told {
            refusal,
            index: NO_INDEX,
        }
    }
}

/// One line of a table of refusals: `refusal` where it fits.
///
/// Lines stand below each other in the paper's order, each ending in `?`, so
/// that the first that fits is told.
pub fn refuse_where(fits: bool, refusal: Refusal) -> Result<(), Refusal> {
    if fits {
        Err(refusal)
    } else {
        Ok(())
    }
}
