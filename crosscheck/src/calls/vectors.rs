//! The stored calls: boundary values of every field, faults in every
//! combination, states that no call gave, and seeded lists call by call.

mod days;
mod plants;
mod readings;
mod returning;
mod writing;

use super::{Call, MOST_BYTES, MOST_PLACES};
use crate::books::edges::{ALLOWED_DATES, OTHER_DATES};
use crate::books::fields::*;
use crate::books::lists::*;
use crate::books::random::Random;
use crate::books::states::{any_state, changed_state};
use crate::ledger::{add, open, State};
use crate::limits::*;

/// All stored calls, in their order.
pub fn stored_calls() -> Vec<Call> {
    let parts = [
        opening_edges(),
        opening_dates(),
        opening_faults(),
        opening_lengths(),
        state_edges(),
        seeded_states(),
        adding_faults(),
        adding_tags_and_lengths(),
        adding_places(),
        adding_numbers(),
        generator_edges(),
        consumer_edges(),
        consumer_faults(),
        eligible_days_left(),
        seeded_lists(),
        plants::plant_calls(),
        writing::writing_calls(),
        days::day_calls(),
        readings::reading_calls(),
        returning::returning_calls(),
    ];
    parts.concat()
}

/// Example M's head with count 3.
const HEAD: Head = Head {
    count: 3,
    ..Head::EXAMPLE_M
};

/// A calendar without marks.
const NO_MARKS: [u8; DAYS_BACK] = [NO_MARK; DAYS_BACK];

/// The number of the last point taken in [`begun_state`].
const LAST: u128 = 5_000_000_000_000_000_000_005;

const SLOTS: [u8; 11] = [0, 1, 17, 18, 19, 33, 34, 35, 47, 48, 255];
const LOSSES: [u16; 8] = [0, 1, 4_999, 5_000, 5_001, 9_999, 10_000, u16::MAX];
const CONTRACTS: [u32; 10] = [
    0,
    1,
    999,
    1_000,
    1_001,
    65_536,
    9_999_999,
    10_000_000,
    10_000_001,
    u32::MAX,
];
const COUNTS: [u32; 9] = [0, 1, 2, 255, 256, 9_999, 10_000, 10_001, 65_535];
const MARKS: [u8; 5] = [1, 2, 3, 4, 255];
const READINGS: [u32; 6] = [
    0,
    1,
    HIGHEST_READING - 1,
    HIGHEST_READING,
    HIGHEST_READING + 1,
    u32::MAX,
];

fn opening(head: Head, marks: [u8; DAYS_BACK]) -> Call {
    Call::Opening {
        head: head.value(),
        calendar: marks.to_vec(),
    }
}

/// Places that hold something else each, negative numbers and the ends too.
fn lent(count: usize) -> Vec<i64> {
    let held = [-1, 0, i64::MAX, i64::MIN, 1 << 40, -(1 << 40), 7, -3_000];
    held[..count].to_vec()
}

fn adding(state: &State, tag: u8, value: Vec<u8>) -> Call {
    Call::Adding {
        state: *state,
        tag,
        places: lent(WINDOW_SLOTS),
        value,
    }
}

fn adding_point(state: &State, point: &PointFields) -> Call {
    adding(state, point.tag(), point.value())
}

fn closing(state: &State) -> Call {
    Call::Closing { state: *state }
}

/// The state of an opening and some generators, whether accepted or not.
fn state_after(head: Head, marks: &[u8], generators: &[GeneratorFields]) -> State {
    let (_, mut state) = open(&head.value(), marks);
    for generator in generators {
        let value = generator.value();
        state = add(&state, GENERATOR_TAG, &value, &mut [0; WINDOW_SLOTS]).state;
    }
    state
}

/// One point of three taken.
fn begun_state() -> State {
    state_after(HEAD, &NO_MARKS, &[GeneratorFields::flat(LAST, 3, 1_000)])
}

/// All three taken.
fn full_state() -> State {
    let generators = [
        GeneratorFields::flat(0, 1, 5),
        GeneratorFields::flat(LAST, 1, 0),
        GeneratorFields::flat(LAST + 1, 1, 900_000),
    ];
    state_after(HEAD, &NO_MARKS, &generators)
}

/// Window, losses and contract at their edges, one thing of a head at a time.
fn heads_at_edges(head: Head) -> Vec<Head> {
    let mut heads = Vec::new();
    let mut with = |change: &dyn Fn(&mut Head)| {
        let mut changed = head;
        change(&mut changed);
        heads.push(changed);
    };
    SLOTS
        .iter()
        .for_each(|&slot| with(&|head| head.first_slot = slot));
    for class in 0..CLASSES {
        LOSSES
            .iter()
            .for_each(|&loss| with(&|head| head.losses[class] = loss));
    }
    CONTRACTS
        .iter()
        .for_each(|&contract| with(&|head| head.contract = contract));
    heads
}

/// Each field of head and calendar at its edges, the others as they should be.
fn opening_edges() -> Vec<Call> {
    let mut calls = vec![opening(Head::EXAMPLE_M, NO_MARKS)];
    let mut heads = heads_at_edges(HEAD);
    heads.extend(COUNTS.map(|count| Head { count, ..HEAD }));
    calls.extend(heads.into_iter().map(|head| opening(head, NO_MARKS)));
    for place in 0..DAYS_BACK {
        for mark in MARKS {
            let mut marks = NO_MARKS;
            marks[place] = mark;
            calls.push(opening(HEAD, marks));
        }
    }
    calls
}

/// Dates at the edges, and around the end of each month of four years.
fn opening_dates() -> Vec<Call> {
    let mut dates: Vec<(u16, u8, u8)> = [&ALLOWED_DATES[..], &OTHER_DATES[..]].concat();
    for year in [2020, 2023, 2096, 2099] {
        for month in 0..=13 {
            dates.extend([0, 1, 28, 29, 30, 31, 32].map(|day| (year, month, day)));
        }
    }
    dates.extend((1..=14).map(|day| (2024, 8, day)));
    let opening_on = |&(year, month, day): &(u16, u8, u8)| {
        let head = Head {
            year,
            month,
            day,
            ..HEAD
        };
        opening(head, NO_MARKS)
    };
    dates.iter().map(opening_on).collect()
}

/// Whether a set of faults holds one; the bit of a fault is its refusal. 50 has
/// that of 16, and 51 and 52 have that of 17, at whose places they stand.
fn holds(faults: u32, refusal: u32) -> bool {
    faults >> refusal & 1 == 1
}

/// Every set of faults with these refusals.
fn sets_of(refusals: &[u32]) -> Vec<u32> {
    let sets = 0..1 << refusals.len();
    sets.map(|set: u32| {
        let places = refusals.iter().enumerate();
        places.fold(0, |faults, (place, refusal)| {
            faults | (set >> place & 1) << refusal
        })
    })
    .collect()
}

/// An opening with the faults of a set, 2 to 8.
fn faulty_opening(faults: u32) -> Call {
    let (mut head, mut marks) = (HEAD, NO_MARKS);
    head.day = if holds(faults, 3) { 3 } else { head.day };
    head.month = if holds(faults, 2) { 13 } else { head.month };
    head.first_slot = if holds(faults, 4) { 17 } else { 34 };
    head.losses[2] = if holds(faults, 5) { 5_001 } else { 5_000 };
    head.contract = if holds(faults, 6) { 999 } else { 0 };
    head.count = if holds(faults, 7) { 10_001 } else { 10_000 };
    marks[29] = if holds(faults, 8) { 4 } else { 3 };
    opening(head, marks)
}

/// Every set of the faults 2 to 8; a date cannot be both 2 and 3.
fn opening_faults() -> Vec<Call> {
    let sets = sets_of(&[2, 3, 4, 5, 6, 7, 8]);
    sets.into_iter().map(faulty_opening).collect()
}

/// Heads and calendars of wrong lengths, alone and with every other fault.
fn opening_lengths() -> Vec<Call> {
    let mut calls = Vec::new();
    for faulty in [0, 255] {
        for head in [0, 1, 16, 17, 18, 50, 53, MOST_BYTES] {
            for calendar in [0, 1, 29, 30, 31, 17, MOST_BYTES] {
                let small = head < 100 && calendar < 100 || faulty == 0;
                if small && (head, calendar) != (MOST_BYTES, MOST_BYTES) {
                    let mut value = HEAD.value();
                    value.resize(head, 0);
                    value[..head.min(5)]
                        .iter_mut()
                        .for_each(|byte| *byte |= faulty);
                    calls.push(Call::Opening {
                        head: value,
                        calendar: vec![faulty; calendar],
                    });
                }
            }
        }
    }
    calls
}

/// A state with one thing changed, for each field and edge.
fn changes_of(state: &State) -> Vec<State> {
    let mut states = vec![*state, State::ZEROS];
    let mut with = |change: &dyn Fn(&mut State)| {
        let mut changed = *state;
        change(&mut changed);
        states.push(changed);
    };
    for &(year, month, day) in ALLOWED_DATES.iter().chain(&OTHER_DATES) {
        let head = &state.terms.head;
        let on_date = Head {
            year,
            month,
            day,
            ..*head
        };
        with(&|state| state.terms.head = on_date);
    }
    for head in heads_at_edges(state.terms.head) {
        with(&|state| state.terms.head = head);
    }
    for count in [0, 1, 2, 3, 4, 10_000, 10_001, 65_536, 65_539, u32::MAX] {
        with(&|state| state.terms.head.count = count);
    }
    for place in 0..DAYS_BACK {
        [3, 4, 255]
            .iter()
            .for_each(|&mark| with(&|state| state.terms.marks[place] = mark));
    }
    for points in [0, 1, 2, 3, 4, 65_536, 65_537, u32::MAX] {
        with(&|state| state.points = points);
    }
    let limit = SLOT_TOTAL_OF_A_POINT as i64 * i64::from(state.points);
    for slot in 0..WINDOW_SLOTS {
        for total in [
            0,
            -1,
            limit,
            limit + 1,
            -limit,
            -limit - 1,
            i64::MIN,
            i64::MAX,
        ] {
            with(&|state| state.totals[slot] = total);
        }
    }
    for last in [0, b'0', b'9', b'/', b':', 255] {
        with(&|state| state.last = [last; NUMBER_LENGTH]);
    }
    for place in 0..NUMBER_LENGTH {
        b"/:9"
            .iter()
            .for_each(|&digit| with(&|state| state.last[place] = digit));
    }
    with(&|state| (state.points, state.last) = (0, [0; NUMBER_LENGTH]));
    with(&|state| (state.points, state.totals, state.last) = (0, [0; 6], [0; NUMBER_LENGTH]));
    states
}

/// Raw states at every edge, added to and closed.
fn state_edges() -> Vec<Call> {
    let value = GeneratorFields::flat(LAST + 9, 2, 700).value();
    let begun = changes_of(&begun_state());
    let full = changes_of(&full_state());
    let mut calls: Vec<Call> = begun
        .iter()
        .map(|state| adding(state, GENERATOR_TAG, value.clone()))
        .collect();
    calls.extend(full.iter().map(closing));
    for state in begun.iter().step_by(7) {
        calls.push(closing(state));
    }
    for state in full.iter().step_by(7) {
        calls.push(adding(state, GENERATOR_TAG, value.clone()));
    }
    calls.extend(closing_edges());
    calls
}

/// A full state with another contract and totals.
fn settled_state(contract: u32, totals: [i64; WINDOW_SLOTS]) -> State {
    let mut state = full_state();
    state.terms.head.contract = contract;
    state.totals = totals;
    state
}

/// Totals around the multiples of 3,000, contracts around what is settled, and
/// the furthest totals of 10,000 points.
fn closing_edges() -> Vec<Call> {
    let mut states = Vec::new();
    for settled in [-1_001, -2, -1, 0, 1, 999, 1_000, 1_001, 4_000] {
        for rest in [-1, 0, 1, 2_999] {
            for contract in [0, 1_000, 1_001] {
                let first = 3_000 * settled + rest;
                let spread = [first + 5_000, -5_000, 1, -1, 70_000, -70_000];
                states.push(settled_state(contract, [first, 0, 0, 0, 0, 0]));
                states.push(settled_state(contract, spread));
            }
        }
    }
    for points in [1, HIGHEST_COUNT] {
        let limit = SLOT_TOTAL_OF_A_POINT as i64 * i64::from(points);
        for total in [limit, limit - 1, limit + 1, -limit, 1 - limit, -limit - 1] {
            for contract in [0, 1_000, 10_000_000] {
                let mut state = settled_state(contract, [total; WINDOW_SLOTS]);
                (state.terms.head.count, state.points) = (points, points);
                states.push(state);
            }
        }
    }
    states.iter().map(closing).collect()
}

/// Given states with up to three changes, and states of random bits.
fn seeded_states() -> Vec<Call> {
    let mut random = Random::new(2024);
    let mut calls = Vec::new();
    for order in 0..300 {
        let state = if order % 10 == 9 {
            any_state(&mut random)
        } else {
            changed_state(&mut random)
        };
        let generator = GeneratorFields::flat(1 << 70, random.between(0, 9), 4_321);
        calls.push(adding(&state, GENERATOR_TAG, generator.value()));
        calls.push(closing(&state));
    }
    calls
}

/// Adding a generator with the faults of a set, 9 to 17, where 17 stands for 51.
fn faulty_generator(faults: u32) -> Call {
    let mut state = begun_state();
    state.terms.marks[0] = if holds(faults, 9) { 4 } else { 3 };
    state.terms.head.count = if holds(faults, 10) { 1 } else { 2 };
    let number = if holds(faults, 15) { LAST } else { LAST + 1 };
    let mut generator = GeneratorFields::flat(number, 1_000_000, HIGHEST_READING);
    if holds(faults, 14) {
        generator.number[21] = b'/';
    }
    generator.baseline += u32::from(holds(faults, 16));
    generator.readings[5] += u32::from(holds(faults, 17));
    let mut value = generator.value();
    if holds(faults, 12) {
        value.push(0);
    }
    Call::Adding {
        state,
        tag: if holds(faults, 11) { 6 } else { GENERATOR_TAG },
        places: lent(if holds(faults, 13) { 7 } else { 6 }),
        value,
    }
}

/// Every set of the faults 9 to 17 of a generator.
fn adding_faults() -> Vec<Call> {
    let sets = sets_of(&[9, 10, 11, 12, 13, 14, 15, 16, 17]);
    sets.into_iter().map(faulty_generator).collect()
}

/// Tags with values of all lengths around those that are due.
fn adding_tags_and_lengths() -> Vec<Call> {
    let state = begun_state();
    let mut calls = Vec::new();
    let mut with = |tag: u8, length: usize| {
        let mut value = GeneratorFields::flat(LAST + 1, 0, 9).value();
        value.resize(length, 0);
        calls.push(adding(&state, tag, value));
    };
    for tag in [0, 1, 2, 3, 4, 5, 6, 7, 127, 128, 255] {
        for length in [0, 1, 17, 21, 22, 23, 26, 30, 49, 50, 51, 71, 72, 73] {
            with(tag, length);
        }
    }
    for tag in [CONSUMER_TAG, GENERATOR_TAG, MIXED_FIRING_TAG] {
        for length in [5_974, 5_975, 5_976, MOST_BYTES] {
            with(tag, length);
        }
    }
    calls
}

/// 0 to 8 lent places, with a good point, one that is refused before them and
/// one that is refused after them.
fn adding_places() -> Vec<Call> {
    let state = begun_state();
    let mut calls = Vec::new();
    for count in 0..=MOST_PLACES {
        for (number, length) in [(LAST + 1, 50), (LAST + 1, 49), (LAST, 50)] {
            let mut value = GeneratorFields::flat(number, 40, 30_000).value();
            value.truncate(length);
            calls.push(Call::Adding {
                state,
                tag: GENERATOR_TAG,
                places: lent(count),
                value,
            });
        }
    }
    calls
}

/// Numbers that differ from the last one, or from digits, in one place.
fn adding_numbers() -> Vec<Call> {
    let begun = begun_state();
    let unused = state_after(HEAD, &NO_MARKS, &[]);
    let mut calls = Vec::new();
    let mut with = |state: &State, number: [u8; NUMBER_LENGTH]| {
        let mut generator = GeneratorFields::flat(0, 0, 100);
        generator.number = number;
        calls.push(adding(state, GENERATOR_TAG, generator.value()));
    };
    for place in 0..NUMBER_LENGTH {
        for digit in *b"\x00/0169:\xff" {
            let mut number = begun.last;
            number[place] = digit;
            with(&begun, number);
        }
        let mut nearly_nines = NOT_YET_ISSUED;
        nearly_nines[place] = b'8';
        with(&begun, nearly_nines);
        with(&unused, nearly_nines);
    }
    let highest = 10u128.pow(NUMBER_LENGTH as u32) - 1;
    for number in [0, 1, LAST - 1, LAST, LAST + 1, highest - 1, highest] {
        with(&begun, point_number(number));
        with(&unused, point_number(number));
    }
    calls
}

/// A generator's baseline and each of its readings at the edges.
fn generator_edges() -> Vec<Call> {
    let state = begun_state();
    let mut calls = Vec::new();
    for baseline in [0, 1, 999_999, 1_000_000, 1_000_001, 1 << 24, u32::MAX] {
        for slot in 0..WINDOW_SLOTS {
            for reading in READINGS {
                let mut generator = GeneratorFields::flat(LAST + 1, baseline, 250_000_000);
                generator.readings[slot] = reading;
                calls.push(adding(&state, GENERATOR_TAG, generator.value()));
            }
        }
    }
    calls
}

/// A consumer with the same reading everywhere.
fn level_consumer(class: u8, reading: u32) -> ConsumerFields {
    ConsumerFields::flat(LAST + 1, class, reading)
}

/// A consumer's class and readings at the edges; examples H to K.
fn consumer_edges() -> Vec<Call> {
    let state = begun_state();
    let mut consumers = Vec::new();
    consumers.extend([0, 1, 2, 3, 4, 255].map(|class| level_consumer(class, 1_200)));
    for place in [0, 1, 15, 16, 47, 48, 743, 1_471, 1_472, 1_487] {
        for reading in [HIGHEST_READING, HIGHEST_READING + 1] {
            let mut consumer = level_consumer(1, 0);
            consumer.readings[place] = reading;
            consumers.push(consumer);
        }
    }
    for usage in [240, 241, 1_200, 1_201] {
        for earlier in [1_200, 0] {
            let mut consumer = level_consumer(2, 1_200);
            consumer.window(0, HEAD.first_slot).fill(usage);
            consumer.earlier(0, HEAD.first_slot).fill(earlier);
            consumers.push(consumer);
        }
    }
    let as_point = |consumer| PointFields::Consumer(consumer);
    let points = consumers.into_iter().map(as_point);
    points.map(|point| adding_point(&state, &point)).collect()
}

/// Adding a consumer with the faults of a set, 13 to 18, where 17 stands for 52.
fn faulty_consumer(faults: u32) -> Call {
    let mut state = begun_state();
    let mark = if holds(faults, 18) { 1 } else { 0 };
    state.terms.marks = [mark; DAYS_BACK];
    let mut consumer = level_consumer(3, HIGHEST_READING);
    consumer.number = point_number(LAST + u128::from(!holds(faults, 15)));
    if holds(faults, 14) {
        consumer.number[0] = b':';
    }
    consumer.class += u8::from(holds(faults, 16));
    consumer.readings[1_487] += u32::from(holds(faults, 17));
    Call::Adding {
        state,
        tag: CONSUMER_TAG,
        places: lent(if holds(faults, 13) { 5 } else { 6 }),
        value: consumer.value(),
    }
}

/// Every set of the faults 13 to 18 of a consumer.
fn consumer_faults() -> Vec<Call> {
    let sets = sets_of(&[13, 14, 15, 16, 17, 18]);
    sets.into_iter().map(faulty_consumer).collect()
}

/// Marks that leave 0 to 7 eligible days, the readings all equal or all 0.
fn eligible_days_left() -> Vec<Call> {
    let mut calls = Vec::new();
    for left in 0..=7 {
        for reading in [0, 500] {
            let mut state = begun_state();
            let eligible = state.terms.eligible_days();
            for &back in &eligible[left..] {
                state.terms.marks[usize::from(back) - 1] = 2;
            }
            let mut consumer = level_consumer(1, reading);
            consumer.window(0, HEAD.first_slot).fill(77);
            calls.push(adding(&state, CONSUMER_TAG, consumer.value()));
        }
    }
    calls
}

/// A list as calls: its opening, its addings, a closing before and after them.
fn calls_of(list: &List) -> Vec<Call> {
    let mut calls = vec![opening(list.head, list.marks)];
    let (_, mut state) = open(&list.head.value(), &list.marks);
    calls.push(closing(&state));
    for point in &list.points {
        calls.push(adding_point(&state, point));
        state = add(&state, point.tag(), &point.value(), &mut [0; WINDOW_SLOTS]).state;
    }
    calls.push(closing(&state));
    calls
}

/// The calls of seeded lists, so many of each kind.
fn calls_of_lists(kinds: &[(Kind, usize)], seed: u64) -> Vec<Call> {
    let mut random = Random::new(seed);
    let mut calls = Vec::new();
    for &(kind, lists) in kinds {
        for _ in 0..lists {
            calls.extend(calls_of(&kind(&mut random)));
        }
    }
    calls
}

/// Seeded lists of each kind, more of those with few consumers.
fn seeded_lists() -> Vec<Call> {
    let kinds: [(Kind, usize); 18] = [
        (ties, 8),
        (quarter_rule_limit, 12),
        (several_dropped, 8),
        (few_standing_days, 16),
        (baseline_at_zero, 8),
        (negative_results, 5),
        (highest_figures, 5),
        (without_remainder, 4),
        (contract_near_settled, 4),
        (number_order, 4),
        (several_edges, 6),
        (ordinary, 4),
        (total_near_multiple, 40),
        (many_generators, 4),
        (mixed_firing_plants, 10),
        (boundary_plant, 16),
        (highest_plants, 5),
        (contract_near_plants, 12),
    ];
    calls_of_lists(&kinds, 8_796)
}
