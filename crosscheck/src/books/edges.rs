//! Seeded changes to a list: one part of it goes to an edge or beyond it.

use super::fields::{point_number, Head, List, PointFields};
use super::random::Random;
use crate::limits::*;

/// A change to an edge.
pub type Edge = fn(&mut Random, &mut List);

/// All of them.
pub const EDGES: [Edge; 5] = [head, calendar, point, number_order, count];

/// A date as year, month, day.
type Date = (u16, u8, u8);

/// Test days at the edges of the calendar that opening accepts.
pub const ALLOWED_DATES: [Date; 8] = [
    (2020, 1, 1),
    (2099, 12, 31),
    (2024, 2, 29),
    (2096, 2, 29),
    (2023, 2, 28),
    (2024, 3, 1),
    (2026, 1, 1),
    (2027, 12, 31),
];

/// Dates beside the range, beside the months, and around a weekend.
pub const OTHER_DATES: [Date; 15] = [
    (2019, 12, 31),
    (2100, 1, 1),
    (0, 0, 0),
    (u16::MAX, 1, 1),
    (2023, 2, 29),
    (2024, 2, 30),
    (2025, 4, 31),
    (2025, 5, 32),
    (2025, 0, 10),
    (2025, 13, 10),
    (2025, 6, 0),
    (2024, 8, 2),
    (2024, 8, 3),
    (2024, 8, 4),
    (2024, 8, 5),
];

/// Biomass shares at the edges, in between and beyond; of 1,024 the low byte
/// alone would be allowed.
pub const SHARES: [u16; 9] = [0, 1, 333, 500, 999, 1_000, 1_001, 1_024, u16::MAX];

/// One part of the head.
pub fn head(random: &mut Random, list: &mut List) {
    match random.below(5) {
        0 => date(random, &mut list.head),
        1 => list.head.first_slot = random.one_of(&[0, 17, 18, 34, 35, 47, 255]),
        2 => {
            let class = random.place(CLASSES);
            list.head.losses[class] = random.one_of(&[0, 5_000, 5_001, 10_000, 65_535]);
        }
        3 => {
            let contracts = [0, 1, 999, 1_000, 10_000_000, 10_000_001, u32::MAX];
            list.head.contract = random.one_of(&contracts);
        }
        _ => list.head.count = random.one_of(&[0, 1, 10_000, 10_001, 65_535]),
    }
}

fn date(random: &mut Random, head: &mut Head) {
    let allowed = random.one_of(&ALLOWED_DATES);
    let other = random.one_of(&OTHER_DATES);
    (head.year, head.month, head.day) = random.one_of(&[allowed, other, other, other]);
}

/// One mark, on any day, weekend or not.
pub fn calendar(random: &mut Random, list: &mut List) {
    list.marks[random.place(DAYS_BACK)] = random.one_of(&[0, 1, 2, 3, 4, 255]);
}

/// One part of one point.
pub fn point(random: &mut Random, list: &mut List) {
    let place = random.place(list.points.len());
    let point = &mut list.points[place];
    match random.below(3) {
        0 => *point.number() = number(random),
        1 => class_baseline_or_share(random, point),
        _ => reading(random, point),
    }
}

/// Numbers at the ends, sometimes with a byte beside the digits.
fn number(random: &mut Random) -> [u8; NUMBER_LENGTH] {
    let mut number = point_number(random.one_of(&[
        0,
        1,
        9_999_999_999_999_999_999_998,
        9_999_999_999_999_999_999_999,
        8_999_999_999_999_999_999_999,
    ]));
    if random.once_in(2) {
        number[random.place(NUMBER_LENGTH)] = random.one_of(b"/:09 \0\xff");
    }
    number
}

fn class_baseline_or_share(random: &mut Random, point: &mut PointFields) {
    match point {
        PointFields::Consumer(consumer) => consumer.class = random.one_of(&[0, 1, 3, 4, 255]),
        PointFields::Generator(generator) => {
            generator.baseline = random.one_of(&[0, 1_000_000, 1_000_001, u32::MAX]);
        }
        PointFields::MixedFiring(plant) => plant.share = random.one_of(&SHARES),
    }
}

/// The first, the last or any reading.
fn reading(random: &mut Random, point: &mut PointFields) {
    let readings = point.readings();
    let any = random.place(readings.len());
    let place = random.one_of(&[0, any, readings.len() - 1]);
    readings[place] = random.one_of(&[0, HIGHEST_READING, HIGHEST_READING + 1, u32::MAX]);
}

/// The last number becomes that of the point before, but for one digit at most.
pub fn number_order(random: &mut Random, list: &mut List) {
    let Some((last, before)) = list.points.split_last_mut() else {
        return;
    };
    if let Some(before) = before.last_mut() {
        let any = random.place(NUMBER_LENGTH);
        let digit = random.one_of(&[0, any, NUMBER_LENGTH - 1]);
        *last.number() = *before.number();
        let digits = [before.number()[digit], b'0', b'5', b'9'];
        last.number()[digit] = random.one_of(&digits);
    }
}

/// The count is one above or below the points there are.
pub fn count(random: &mut Random, list: &mut List) {
    let points = list.points.len() as u32;
    list.head.count = random.one_of(&[points - 1, points + 1]);
}
