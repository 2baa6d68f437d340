//! Seeded sequences of calls: an opening, then addings and closings in any
//! order, refused ones among them.

use super::fields::{GeneratorFields, List, PointFields};
use super::lists::KINDS;
use super::random::Random;
use super::shortfalls::SHORTFALL_KINDS;
use crate::demand3::Call;
use crate::limits::*;

/// An opening with the calls after it.
#[derive(Clone, Debug)]
pub struct Sequence {
    /// The kind of the list.
    pub kind: &'static str,
    /// The head value.
    pub head: Vec<u8>,
    /// The calendar value.
    pub calendar: Vec<u8>,
    /// The calls after the opening.
    pub calls: Vec<Call>,
}

/// The sequence of a number: every second stretch is over lists made for demand
/// 3, one of each kind, the others over lists of any other kind.
pub fn seeded_sequence(number: u64) -> Sequence {
    let mut random = Random::new(number);
    let made_for_it = SHORTFALL_KINDS.len();
    let place = number as usize % (2 * made_for_it);
    let (kind, make) = match place.checked_sub(made_for_it) {
        Some(place) => SHORTFALL_KINDS[place],
        None => random.one_of(&KINDS),
    };
    let list = make(&mut random);
    sequence_over(&mut random, kind, &list)
}

/// A sequence over a list.
fn sequence_over(random: &mut Random, kind: &'static str, list: &List) -> Sequence {
    let mut head = list.head.value();
    let mut calendar = list.marks.to_vec();
    if random.once_in(30) {
        spoil_opening(random, &mut head, &mut calendar);
    }
    let calls = calls(random, list);
    Sequence {
        kind,
        head,
        calendar,
        calls,
    }
}

/// A head or calendar that opening refuses.
fn spoil_opening(random: &mut Random, head: &mut Vec<u8>, calendar: &mut Vec<u8>) {
    match random.below(5) {
        0 => head.truncate(HEAD_LENGTH - 1),
        1 => calendar.push(0),
        2 => head[4] = 35,
        3 => head[2] = 13,
        _ => calendar[random.place(DAYS_BACK)] = 4,
    }
}

/// The points of a list as addings, with closings and refused addings between
/// them, then generators for points that were refused, and more of the same.
fn calls(random: &mut Random, list: &List) -> Vec<Call> {
    let mut calls = Vec::new();
    for point in &list.points {
        if random.once_in(4) {
            calls.push(Call::Closing);
        }
        if random.once_in(3) {
            calls.push(spoiled_adding(random, point));
        }
        calls.push(adding(point));
    }
    calls.push(Call::Closing);
    for order in 0..random.between(0, 3) {
        calls.push(adding(&filling_point(random, order)));
        calls.push(Call::Closing);
    }
    if random.once_in(2) {
        calls.push(adding(&random_point(random, list)));
        calls.push(Call::Closing);
    }
    calls
}

/// An adding as it should be.
pub fn adding(point: &PointFields) -> Call {
    Call::Adding {
        tag: point.tag(),
        value: point.value(),
        places: WINDOW_SLOTS,
    }
}

/// A generator with a number above those of the lists.
fn filling_point(random: &mut Random, order: u32) -> PointFields {
    let number = 7_000_000_000_000_000_000_000 + u128::from(order);
    let mut generator = GeneratorFields::flat(number, random.between(0, 9), 0);
    for reading in &mut generator.readings {
        *reading = random.between(0, 9_000_000);
    }
    PointFields::Generator(generator)
}

/// One of the list's own points again.
fn random_point(random: &mut Random, list: &List) -> PointFields {
    list.points[random.place(list.points.len())].clone()
}

/// What an adding is given, beside the state.
struct Given {
    tag: u8,
    value: Vec<u8>,
    places: usize,
}

/// An adding with one to three things wrong with it.
pub fn spoiled_adding(random: &mut Random, point: &PointFields) -> Call {
    let mut given = Given {
        tag: point.tag(),
        value: point.value(),
        places: WINDOW_SLOTS,
    };
    for _ in 0..random.one_of(&[1, 1, 2, 3]) {
        spoil(random, &mut given);
    }
    let Given { tag, value, places } = given;
    Call::Adding { tag, value, places }
}

/// One thing wrong, unless the value is cut too short to hold it.
fn spoil(random: &mut Random, given: &mut Given) {
    let number_digit = random.place(NUMBER_LENGTH);
    match random.below(8) {
        0 => given.places = random.one_of(&[0, 5, 7]),
        1 => given.tag = random.one_of(&[0, 1, 2, 6, 7, 255]),
        2 => given.value.push(0),
        3 => given.value.truncate(random.place(GENERATOR_LENGTH)),
        4 => put(given, 0, &NOT_YET_ISSUED),
        5 => put(given, number_digit, &[random.one_of(b"/:a")]),
        6 => put(given, NUMBER_LENGTH, &[255]), // class, or high byte of baseline or share
        _ => {
            // The high byte of the last reading, for all kinds alike.
            let end = given.value.len().saturating_sub(READING_LENGTH);
            put(given, end, &[255]);
        }
    }
}

/// Puts bytes at a place of the value, as far as it reaches.
fn put(given: &mut Given, place: usize, bytes: &[u8]) {
    for (byte, new) in given.value.iter_mut().skip(place).zip(bytes) {
        *byte = *new;
    }
}
