//! Example books by name.

use super::fields::{ConsumerFields, GeneratorFields, Head, List, MixedFiringFields, PointFields};
use crate::limits::*;

/// Example M of document 01: one generator.
pub fn example_m() -> Vec<u8> {
    let mut list = List::new(Head::EXAMPLE_M);
    list.push(PointFields::Generator(GeneratorFields::flat(1, 0, 550_000)));
    list.book()
}

/// The consumer of examples H to J: high voltage, history and earlier readings
/// 1,200, with the use given.
pub fn consumer_of_example_h(number: u128, usage: u32) -> ConsumerFields {
    let mut consumer = ConsumerFields::flat(number, 2, 1_200);
    consumer.window(0, Head::EXAMPLE_M.first_slot).fill(usage);
    consumer
}

/// Consumers of all classes and a generator, with a shortfall.
pub fn consumers() -> Vec<u8> {
    let first_slot = Head::EXAMPLE_M.first_slot;
    let mut list = List::new(Head::EXAMPLE_M);
    list.marks[0] = 1;
    for (number, class) in (1..).zip([1u8, 2, 3]) {
        let mut consumer = ConsumerFields::flat(number, class, 400_000);
        for back in 0..=DAYS_BACK {
            *consumer.reading(back, usize::from(first_slot)) += 1_000 * back as u32;
        }
        let usage = 250_000 + 7 * u32::from(class);
        consumer.window(0, first_slot).fill(usage);
        list.push(PointFields::Consumer(consumer));
    }
    list.push(PointFields::Generator(GeneratorFields::flat(
        9, 100, 30_001,
    )));
    list.book()
}

/// List 3 of docs/ROUNDING.md: three mixed-firing plants and a generator, with a
/// shortfall.
pub fn mixed_firing() -> Vec<u8> {
    let mut plant_a = MixedFiringFields::flat(1, 333, 400_700, 200_001);
    let (outside, inside) = plant_a.readings.split_at_mut(WINDOW_SLOTS);
    for (slot, (outside, inside)) in (0..).zip(outside.iter_mut().zip(inside)) {
        *outside += 3_000 * slot;
        *inside += 1_000 * slot;
    }
    let generator = GeneratorFields::flat(2, 100, 80_163);
    let plant_b = MixedFiringFields::flat(3, 0, 6_500, 3_500);
    let plant_c = MixedFiringFields::flat(4, 1_000, 123_456, 654_321);
    let mut list = List::new(Head::EXAMPLE_M);
    list.push(PointFields::MixedFiring(plant_a));
    list.push(PointFields::Generator(generator));
    list.push(PointFields::MixedFiring(plant_b));
    list.push(PointFields::MixedFiring(plant_c));
    list.book()
}

/// Three consumers of which days return and a generator, with a shortfall. Of the
/// thirty days six are eligible, 1, 2, 5, 6, 7 and 8 back; their window readings
/// stand in the table, in kWh a slot. All earlier readings are the same, so that
/// the baseline of a slot is a quarter of what the four days read there.
pub fn returning() -> Vec<u8> {
    let mut list = List::new(Head::EXAMPLE_M);
    list.head.contract = 2_000;
    list.marks[8..].fill(2);
    let consumers = [
        (2, [400, 400, 20, 20, 20, 1], 5_250),
        (3, [1, 30, 40, 50, 60, 2_000], 37_500),
        (1, [0, 90, 0, 90, 0, 0], 0),
    ];
    for (number, (class, of_days, usage)) in (1..).zip(consumers) {
        let consumer = consumer_with_windows(number, class, of_days, usage);
        list.push(PointFields::Consumer(consumer));
    }
    list.push(PointFields::Generator(GeneratorFields::flat(4, 0, 30_001)));
    list.book()
}

/// A consumer with these window readings, in kWh, on the six eligible days of
/// [`returning`], the highest of its list on all other days, and a use in Wh.
fn consumer_with_windows(number: u128, class: u8, of_days: [u32; 6], usage: u32) -> ConsumerFields {
    let first_slot = Head::EXAMPLE_M.first_slot;
    let mut consumer = ConsumerFields::flat(number, class, 200_000);
    for back in 1..=DAYS_BACK {
        consumer.window(back, first_slot).fill(3_000_000);
    }
    for (back, kwh) in [1, 2, 5, 6, 7, 8].into_iter().zip(of_days) {
        consumer.window(back, first_slot).fill(1_000 * kwh);
    }
    consumer.window(0, first_slot).fill(usage);
    consumer
}

/// The list of [`consumers`], cut in the middle of its second point.
pub fn refused() -> Vec<u8> {
    let mut book = consumers();
    book.truncate(WRITTEN_HEAD_LENGTH + FRONT_LENGTH + CONSUMER_LENGTH + CONSUMER_LENGTH / 2);
    book
}
