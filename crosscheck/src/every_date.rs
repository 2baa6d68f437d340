//! What the program every_date prints: every date, for change request 6.
//!
//! The request changes the way in which the product counts days, and no count.
//! Here they are counted by the table of document 01, as before.

use crate::days::{day_count, is_weekend};
use std::ops::RangeInclusive;

/// From before the first day of the count to behind the last date.
const YEARS: RangeInclusive<u16> = 1999..=2101;
/// The months, with a number on either side.
const MONTHS: RangeInclusive<u8> = 0..=13;
/// The days, with a number on either side.
const DAYS: RangeInclusive<u8> = 0..=32;

/// A line: the count and whether it is a weekend day, or that there is no such date.
fn line(year: u16, month: u8, day: u8) -> String {
    let date = format!("{year}-{month:02}-{day:02}");
    match day_count(year, month, day) {
        Some(count) if is_weekend(count) => format!("{date} {count} weekend yes\n"),
        Some(count) => format!("{date} {count} weekend no\n"),
        None => format!("{date} none\n"),
    }
}

/// The text, in rising order, the day fastest; every line ends with one newline.
pub fn every_date_text() -> String {
    let mut text = String::new();
    for year in YEARS {
        for month in MONTHS {
            for day in DAYS {
                text += &line(year, month, day);
            }
        }
    }
    text
}
