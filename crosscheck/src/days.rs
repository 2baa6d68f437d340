//! "Days": dates, their count from 2000-01-01, weekdays and eligible days.

use crate::limits::{DAYS_BACK, FIRST_YEAR, LAST_YEAR, NO_MARK};

/// 2000-01-01 is day 0.
const YEAR_OF_DAY_ZERO: u16 = 2000;
const DAYS_OF_A_YEAR: u32 = 365;
const MONTHS: u8 = 12;
const FEBRUARY: u8 = 2;

/// The days before each month, without the leap day.
const DAYS_BEFORE_MONTH: [u32; MONTHS as usize] =
    [0, 31, 59, 90, 120, 151, 181, 212, 243, 273, 304, 334];

/// Remainder of the count by 7 on a Saturday.
pub const SATURDAY: u32 = 0;
/// Remainder of the count by 7 on a Sunday.
pub const SUNDAY: u32 = 1;

/// From 2000 to 2099 every fourth year is a leap year.
fn is_leap_year(year: u16) -> bool {
    year.is_multiple_of(4)
}

/// The days before a year, counted from 2000-01-01.
fn days_before_year(year: u16) -> u32 {
    let years = u32::from(year - YEAR_OF_DAY_ZERO);
    let leap_days = years.div_ceil(4);
    years * DAYS_OF_A_YEAR + leap_days
}

/// The days before a month in its year, one more after February in a leap year.
fn days_before_month(year: u16, month: u8) -> u32 {
    let leap_day = u32::from(month > FEBRUARY && is_leap_year(year));
    DAYS_BEFORE_MONTH[usize::from(month - 1)] + leap_day
}

/// The days of a month: up to the next month, or to the next year.
fn days_of_month(year: u16, month: u8) -> u32 {
    let days_to_the_end = if month == MONTHS {
        DAYS_OF_A_YEAR + u32::from(is_leap_year(year))
    } else {
        days_before_month(year, month + 1)
    };
    days_to_the_end - days_before_month(year, month)
}

/// The count of a date from 2000-01-01, where there is such a date in range.
pub fn day_count(year: u16, month: u8, day: u8) -> Option<u32> {
    let in_range = (FIRST_YEAR..=LAST_YEAR).contains(&year)
        && (1..=MONTHS).contains(&month)
        && (1..=days_of_month(year, month)).contains(&u32::from(day));
    in_range.then(|| days_before_year(year) + days_before_month(year, month) + u32::from(day) - 1)
}

/// The weekday of a counted day: 0 Saturday, 1 Sunday, 2 Monday and so on.
pub fn weekday(day_count: u32) -> u32 {
    day_count % 7
}

/// Whether a counted day is a Saturday or Sunday.
pub fn is_weekend(day_count: u32) -> bool {
    matches!(weekday(day_count), SATURDAY | SUNDAY)
}

/// The eligible days back from a test day, nearest first, as numbers 1 to 30.
pub fn eligible_days(test_day: u32, marks: &[u8; DAYS_BACK]) -> Vec<u8> {
    (1u8..)
        .zip(marks)
        .filter(|&(back, &mark)| !is_weekend(test_day - u32::from(back)) && mark == NO_MARK)
        .map(|(back, _)| back)
        .collect()
}
