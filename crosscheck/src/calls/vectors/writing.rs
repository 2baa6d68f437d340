//! Stored calls of writing: what openings and addings are given, with lent
//! bytes of lengths around the one that is due.

use super::plants::{faulty_plant, plant_edges};
use super::*;

/// Lengths of lent bytes, counted from the one that is due, in turns; the
/// lowest number stands for no byte.
pub const ROOMS: [isize; 7] = [0, 1, -1, 0, 9, isize::MIN, 60];

/// One byte too few.
pub const ONE_SHORT: [isize; 1] = [-1];

/// As many as are due.
pub const EXACT: [isize; 1] = [0];

/// All stored calls of writing, in their order.
pub fn writing_calls() -> Vec<Call> {
    let generator_sets = sets_of(&[11, 12, 14, 16, 17]);
    let consumer_sets = sets_of(&[14, 16, 17]);
    let faulty_generators: Vec<Call> = generator_sets.into_iter().map(faulty_generator).collect();
    let faulty_consumers: Vec<Call> = consumer_sets.into_iter().map(faulty_consumer).collect();
    let plant_sets = sets_of(&[11, 12, 14, 16, 17]);
    let faulty_plants: Vec<Call> = plant_sets.into_iter().map(faulty_plant).collect();
    let parts = [
        every_room(),
        writing(opening_edges(), &ROOMS),
        writing(opening_dates(), &ROOMS),
        writing(opening_faults(), &ONE_SHORT),
        writing(opening_faults(), &EXACT),
        writing(opening_lengths(), &ROOMS),
        writing(faulty_generators.clone(), &ONE_SHORT),
        writing(faulty_generators, &EXACT),
        writing(adding_tags_and_lengths(), &ROOMS),
        writing(adding_numbers(), &ROOMS),
        writing(generator_edges(), &ROOMS),
        writing(faulty_consumers.clone(), &[-5_925]),
        writing(faulty_consumers, &EXACT),
        writing(consumer_edges(), &ROOMS),
        consumer_tags_and_numbers(),
        writing(faulty_plants.clone(), &ONE_SHORT),
        writing(faulty_plants, &EXACT),
        writing(plant_edges(), &ROOMS),
        seeded_writing(),
    ];
    parts.concat()
}

/// Lent bytes, no two neighbours alike, and others for another call.
fn lent_bytes(length: usize, order: usize) -> Vec<u8> {
    let byte = |place| (37 * place + 11 * order + 5) as u8;
    (0..length).map(byte).collect()
}

/// The same values written: openings give heads and addings points, and a
/// closing gives nothing. Each has the next of the rooms.
pub fn writing(calls: Vec<Call>, rooms: &[isize]) -> Vec<Call> {
    let as_writing = |(order, (call, &room)): (usize, (Call, &isize))| {
        let lent = |due: usize| {
            let length = due.saturating_add_signed(room);
            lent_bytes(length.min(MOST_BYTES), order)
        };
        match call {
            Call::Opening { head, calendar } => Some(Call::WritingHead {
                head,
                calendar,
                lent: lent(WRITTEN_HEAD_LENGTH),
            }),
            Call::Adding { tag, value, .. } => Some(Call::WritingPoint {
                lent: lent(FRONT_LENGTH + value.len()),
                tag,
                value,
            }),
            _ => None,
        }
    };
    let with_rooms = calls.into_iter().zip(rooms.iter().cycle());
    with_rooms.enumerate().filter_map(as_writing).collect()
}

/// A generator with no two bytes behind its number alike.
fn uneven_generator() -> GeneratorFields {
    GeneratorFields {
        number: point_number(1_234_567_890_123_456_789_012),
        baseline: 0x0001_0203,
        readings: [4, 8, 12, 16, 20, 24].map(|first| 0x0101_0101 * first + 0x0001_0203),
    }
}

/// A mixed-firing plant with no two bytes behind its number alike.
fn uneven_plant() -> MixedFiringFields {
    let first = |place: usize| 4 * place as u32 + 4;
    MixedFiringFields {
        number: point_number(2_109_876_543_210_987_654_321),
        share: 0x0203,
        readings: std::array::from_fn(|place| 0x0101_0101 * first(place) + 0x0001_0203),
    }
}

/// A consumer with other readings everywhere.
fn uneven_consumer() -> ConsumerFields {
    let mut consumer = ConsumerFields::flat(9_876_543_210_987_654_321_098, 2, 0);
    for (place, reading) in consumer.readings.iter_mut().enumerate() {
        *reading = 671_089 * place as u32 + 7;
    }
    consumer
}

/// Good values in every room up to twice the one that is due; for a consumer,
/// in rooms around the lengths that count.
fn every_room() -> Vec<Call> {
    let marks = std::array::from_fn(|place| place as u8 % (HIGHEST_MARK + 1));
    let state = begun_state();
    let head = opening(HEAD, marks);
    let generator = adding(&state, GENERATOR_TAG, uneven_generator().value());
    let consumer = adding(&state, CONSUMER_TAG, uneven_consumer().value());
    let plant = adding(&state, MIXED_FIRING_TAG, uneven_plant().value());
    let mut rooms: Vec<isize> = (-53..=53).collect();
    rooms.extend([202, 203, 204, 5_925, 5_947]);
    let plant_rooms: Vec<isize> = (-75..=75).chain([5_903, 5_925]).collect();
    let consumer_rooms = [isize::MIN, -5_977, -5_925, -4, -3, -2, -1, 0, 1, 2, 21, 22];
    [
        writing(vec![head; rooms.len()], &rooms),
        writing(vec![generator; rooms.len()], &rooms),
        writing(vec![consumer; consumer_rooms.len()], &consumer_rooms),
        writing(vec![plant; plant_rooms.len()], &plant_rooms),
    ]
    .concat()
}

/// A good consumer's value with other tags, and with numbers at the end of
/// those allowed and beyond it.
fn consumer_tags_and_numbers() -> Vec<Call> {
    let state = begun_state();
    let with_tag = |tag| adding(&state, tag, uneven_consumer().value());
    let with_number = |number| {
        let consumer = ConsumerFields {
            number,
            ..uneven_consumer()
        };
        adding(&state, CONSUMER_TAG, consumer.value())
    };
    let (mut nearly_nines, mut no_digit) = (NOT_YET_ISSUED, NOT_YET_ISSUED);
    nearly_nines[NUMBER_LENGTH - 1] = b'8';
    no_digit[NUMBER_LENGTH - 1] = b':';
    let numbers = [NOT_YET_ISSUED, nearly_nines, no_digit];
    [
        writing(
            [2, 2, 4, 4, 5, 5, 6, 6].map(with_tag).to_vec(),
            &[-5_978, -5_900],
        ),
        writing(numbers.map(with_number).to_vec(), &[0, 0, -5_900]),
    ]
    .concat()
}

/// Heads and points of seeded lists, some at an edge or beyond it.
fn seeded_writing() -> Vec<Call> {
    let kinds: [(Kind, usize); 10] = [
        (ordinary, 4),
        (boundary_head, 3),
        (boundary_calendar, 3),
        (boundary_point, 5),
        (several_edges, 5),
        (highest_figures, 2),
        (total_near_multiple, 4),
        (many_generators, 2),
        (mixed_firing_plants, 3),
        (boundary_plant, 12),
    ];
    writing(calls_of_lists(&kinds, 53), &ROOMS)
}
