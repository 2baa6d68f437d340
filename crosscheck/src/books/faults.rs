//! Seeded lists with several faults at once: each rule of opening, or of a
//! point, is broken or kept by itself, so that every two of them meet.

use super::edges::OTHER_DATES;
use super::fields::{List, PointFields};
use super::lists::{begun, consumer, generator, ordinary, plant};
use super::random::Random;
use crate::limits::*;

/// What breaks one rule.
type Fault = fn(&mut Random, &mut List);

/// For 2 or 3, then for 4 to 8.
const HEAD_FAULTS: [Fault; 6] = [date, first_slot, loss, contract, count, mark];

/// For 15, 14, 16 or 50, 51 or 52, and 18; the number is set before a digit of it.
const POINT_FAULTS: [Fault; 5] = [
    number_order,
    digit,
    class_baseline_or_share,
    large_readings,
    days,
];

/// For 16 or 50, and 18: on both sides of 51 and 52.
const BESIDE_LARGE_READINGS: [Fault; 2] = [class_baseline_or_share, days];

/// Breaks some of the rules.
fn break_some(random: &mut Random, list: &mut List, faults: &[Fault]) {
    for fault in faults {
        if random.once_in(3) {
            fault(random, list);
        }
    }
}

/// An ordinary list with some of the faults 2 to 8.
pub fn head_faults(random: &mut Random) -> List {
    let mut list = ordinary(random);
    break_some(random, &mut list, &HEAD_FAULTS);
    list
}

/// A generator, then a point with some of the faults 14 to 18, where 50 stands
/// for 16 and 51 or 52 for 17; or a point alone that has large readings.
pub fn point_faults(random: &mut Random) -> List {
    let mut list = ordinary(random);
    list.points.clear();
    let alone = random.once_in(3);
    if !alone {
        let first = generator(random, &list, 50_000);
        list.push(PointFields::Generator(first));
    }
    let point = match random.below(4) {
        0 => PointFields::Generator(generator(random, &list, 50_000)),
        1 => PointFields::MixedFiring(plant(random, &list, 50_000)),
        _ => PointFields::Consumer(consumer(random, &list, 50_000)),
    };
    list.push(point);
    if alone {
        large_readings(random, &mut list);
        break_some(random, &mut list, &BESIDE_LARGE_READINGS);
    } else {
        break_some(random, &mut list, &POINT_FAULTS);
    }
    list
}

/// A mixed-firing plant, alone or behind a generator, with some of the faults 14,
/// 15, 50 and 51; days it does not need.
pub fn plant_faults(random: &mut Random) -> List {
    let mut list = begun(random);
    if random.once_in(2) {
        let first = generator(random, &list, 50_000);
        list.push(PointFields::Generator(first));
    }
    let plant = plant(random, &list, 50_000);
    list.push(PointFields::MixedFiring(plant));
    break_some(random, &mut list, &POINT_FAULTS);
    list
}

/// No such date, or a weekend.
fn date(random: &mut Random, list: &mut List) {
    let other = random.one_of(&OTHER_DATES);
    let dates = [(2024, 8, 3), (2024, 8, 4), other, other];
    (list.head.year, list.head.month, list.head.day) = random.one_of(&dates);
}

fn first_slot(random: &mut Random, list: &mut List) {
    list.head.first_slot = random.one_of(&[0, 17, 35, 255]);
}

fn loss(random: &mut Random, list: &mut List) {
    list.head.losses[random.place(CLASSES)] = random.one_of(&[5_001, 10_000, u16::MAX]);
}

/// Also a contract that its three low bytes would allow.
fn contract(random: &mut Random, list: &mut List) {
    let three_bytes = (1 << 24) + LOWEST_CONTRACT;
    list.head.contract = random.one_of(&[1, 999, 10_000_001, three_bytes, u32::MAX]);
}

fn count(random: &mut Random, list: &mut List) {
    list.head.count = random.one_of(&[0, 10_001, 65_535]);
}

fn mark(random: &mut Random, list: &mut List) {
    list.marks[random.place(DAYS_BACK)] = random.one_of(&[4, 255]);
}

/// The last two points of a list.
fn last_two(list: &mut List) -> Option<(&mut PointFields, &mut PointFields)> {
    let (last, before) = list.points.split_last_mut()?;
    Some((before.last_mut()?, last))
}

/// The last number is that of the point before, or zero.
fn number_order(random: &mut Random, list: &mut List) {
    if let Some((before, last)) = last_two(list) {
        let zero = [b'0'; NUMBER_LENGTH];
        *last.number() = random.one_of(&[*before.number(), zero]);
    }
}

/// A byte beside the digits in the last number, or nines.
fn digit(random: &mut Random, list: &mut List) {
    let (place, byte) = (random.place(NUMBER_LENGTH), random.one_of(b"/:"));
    let nines = random.once_in(3);
    if let Some(last) = list.points.last_mut() {
        last.number()[place] = byte;
        if nines {
            *last.number() = NOT_YET_ISSUED;
        }
    }
}

/// Also a baseline that its three low bytes would allow, and a share that its
/// low byte would allow.
fn class_baseline_or_share(random: &mut Random, list: &mut List) {
    match list.points.last_mut() {
        Some(PointFields::Consumer(consumer)) => consumer.class = random.one_of(&[0, 4, 255]),
        Some(PointFields::Generator(generator)) => {
            generator.baseline = random.one_of(&[1_000_001, 1 << 24, u32::MAX]);
        }
        Some(PointFields::MixedFiring(plant)) => {
            plant.share = random.one_of(&[WHOLE_SHARE + 1, 1 << 10, u16::MAX]);
        }
        None => {}
    }
}

/// One to three large readings of the last point.
fn large_readings(random: &mut Random, list: &mut List) {
    let Some(last) = list.points.last_mut() else {
        return;
    };
    for _ in 0..random.between(1, 3) {
        let place = place_of_reading(random, last.readings().len());
        last.readings()[place] = random.one_of(&[HIGHEST_READING + 1, u32::MAX]);
    }
}

/// Any of so many readings; of a consumer mostly the first or the last of its
/// test day or of its days back.
fn place_of_reading(random: &mut Random, readings: usize) -> usize {
    let any = random.place(readings);
    if readings < CONSUMER_READINGS {
        return any;
    }
    let ends = [0, SLOTS_OF_A_DAY - 1, SLOTS_OF_A_DAY, readings - 1];
    let end = random.one_of(&ends);
    random.one_of(&[any, end, end, end])
}

/// Marks that leave at most three eligible days.
fn days(random: &mut Random, list: &mut List) {
    let left = random.place(CHOSEN_DAYS);
    list.marks = [0; DAYS_BACK].map(|_: u8| random.between(1, 3) as u8);
    list.marks[..left].fill(NO_MARK);
}
