//! Writing a head with its calendar, or a point, into lent bytes.

use crate::limits::*;
use crate::point::Point;
use crate::refusals::*;
use crate::terms::Terms;

/// A field: tag of one byte, length of two bytes, value.
fn field(tag: u8, value: &[u8]) -> Vec<u8> {
    let length = value.len() as u16;
    let mut field = vec![tag];
    field.extend(length.to_be_bytes());
    field.extend(value);
    field
}

/// Rule 40: too few bytes. Otherwise the bytes go to the front of the lent ones.
fn put(written: &[u8], lent: &mut [u8]) -> Result<(), Refusal> {
    refuse_where(lent.len() < written.len(), LENT_BYTES)?;
    lent[..written.len()].copy_from_slice(written);
    Ok(())
}

/// Writes a head with its calendar: 1 to 8, then 40.
pub fn write_head(head: &[u8], calendar: &[u8], lent: &mut [u8]) -> Refusal {
    let outcome = try_write_head(head, calendar, lent);
    outcome.err().unwrap_or(ACCEPTED)
}

fn try_write_head(head: &[u8], calendar: &[u8], lent: &mut [u8]) -> Result<(), Refusal> {
    Terms::read(head, calendar)?; // 1 to 8
    let mut written = field(HEAD_TAG, head);
    written.extend(field(CALENDAR_TAG, calendar));
    put(&written, lent)
}

/// Writes a point: 11, 12, 14, 16 or 50, 51 or 52, then 40. The answer has the
/// index of the reading that 51 or 52 concerns, otherwise 0.
pub fn write_point(tag: u8, value: &[u8], lent: &mut [u8]) -> Told {
    let outcome = try_write_point(tag, value, lent);
    outcome.err().unwrap_or(Told::from(ACCEPTED))
}

fn try_write_point(tag: u8, value: &[u8], lent: &mut [u8]) -> Result<(), Told> {
    let point = Point::cut(tag, value)?; // 11, 12
    point.check_number()?; // 14
    point.check_class_baseline_or_share()?; // 16 or 50
    point.check_readings()?; // 51 or 52
    put(&field(tag, value), lent)?; // 40
    Ok(())
}
