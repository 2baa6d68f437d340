//! Stored calls of adding and of writing a point for the index of the first
//! large reading: alone at every place that matters, several at once, beside
//! every other refusal, and none.

use super::writing::{writing, EXACT, ONE_SHORT, ROOMS};
use super::*;

/// Too large by one, and by as much as four bytes hold.
const LARGE: [u32; 2] = [HIGHEST_READING + 1, u32::MAX];

/// What the other readings are, in turns; the last is just not too large.
const LEVELS: [u32; 3] = [1_200, 0, HIGHEST_READING];

/// The ends of a consumer's test day and of its days back.
const CONSUMER_ENDS: [usize; 4] = [0, 47, 48, 1_487];

/// Places among a consumer's readings: beside those ends, the ends of the window
/// and of some days, and places around what one byte counts.
const CONSUMER_PLACES: [usize; 27] = [
    1, 5, 15, 16, 25, 26, 31, 32, 46, 49, 74, 79, 94, 95, 96, 97, 255, 256, 257, 743, 1_023, 1_024,
    1_439, 1_440, 1_441, 1_471, 1_486,
];

/// Two places of a consumer's large readings: within the test day, within the
/// days back, and one in each.
const CONSUMER_PAIRS: [(usize, usize); 11] = [
    (0, 47),
    (0, 48),
    (0, 1_487),
    (26, 74),
    (46, 47),
    (47, 48),
    (47, 1_487),
    (5, 1_000),
    (48, 49),
    (48, 1_487),
    (1_486, 1_487),
];

/// Few lent bytes for a consumer: none, two and 53. The readings are told before
/// 40.
const FEW: [isize; 3] = [isize::MIN, -5_976, -5_925];

/// All of them, in their order.
pub fn reading_calls() -> Vec<Call> {
    let small_points = [one_of_each_place(), two_of_all_places(), from_each_place()].concat();
    let consumers = [
        consumer_places(),
        consumer_pairs(),
        consumer_from_places(),
        consumer_slots_of_each_day(),
    ]
    .concat();
    let parts = [
        small_points.clone(),
        consumer_ends(),
        consumers.clone(),
        refused_before(),
        good_points(),
        without_days(),
        between_good_points(),
        writing(small_points, &ROOMS),
        writing(consumer_ends(), &EXACT),
        writing(consumers, &FEW),
        writing(refused_before(), &[0, -1]),
        writing(good_points(), &EXACT),
        writing(good_points(), &ONE_SHORT),
    ];
    parts.concat()
}

/// A point with one level of readings and the number behind the last.
fn level_point(tag: u8, reading: u32) -> PointFields {
    match tag {
        CONSUMER_TAG => PointFields::Consumer(level_consumer(3, reading)),
        GENERATOR_TAG => {
            PointFields::Generator(GeneratorFields::flat(LAST + 1, 1_000_000, reading))
        }
        _ => {
            let plant = MixedFiringFields::flat(LAST + 1, WHOLE_SHARE, reading, reading);
            PointFields::MixedFiring(plant)
        }
    }
}

/// A point with large readings at these places; levels take turns.
fn point_with(tag: u8, turn: usize, large: &[(usize, u32)]) -> PointFields {
    let mut point = level_point(tag, LEVELS[turn % LEVELS.len()]);
    for &(place, reading) in large {
        point.readings()[place] = reading;
    }
    point
}

fn adding_with(tag: u8, turn: usize, large: &[(usize, u32)]) -> Call {
    adding_point(&begun_state(), &point_with(tag, turn, large))
}

/// The kinds with few readings, and how many they have.
const SMALL_KINDS: [(u8, usize); 2] = [
    (GENERATOR_TAG, WINDOW_SLOTS),
    (MIXED_FIRING_TAG, MIXED_FIRING_READINGS),
];

/// One large reading at each place of a generator and of a plant.
fn one_of_each_place() -> Vec<Call> {
    let mut calls = Vec::new();
    for (tag, readings) in SMALL_KINDS {
        for place in 0..readings {
            calls.extend(LARGE.map(|large| adding_with(tag, place, &[(place, large)])));
        }
    }
    calls
}

/// Two large readings, the first the smaller one, then the greater one.
fn two_large(tag: u8, turn: usize, first: usize, second: usize) -> [Call; 2] {
    let [small, great] = LARGE;
    [(small, great), (great, small)].map(|(one, other)| {
        let large = [(first, one), (second, other)];
        adding_with(tag, turn, &large)
    })
}

/// Every two places of a generator and of a plant.
fn two_of_all_places() -> Vec<Call> {
    let mut calls = Vec::new();
    for (tag, readings) in SMALL_KINDS {
        for first in 0..readings {
            for second in first + 1..readings {
                calls.extend(two_large(tag, first + second, first, second));
            }
        }
    }
    calls
}

/// Large readings at some places, both sizes in turns.
fn many_large(tag: u8, places: impl Iterator<Item = usize>) -> Call {
    let large: Vec<(usize, u32)> = places.zip(LARGE.into_iter().cycle()).collect();
    adding_with(tag, large.len(), &large)
}

/// All readings of a generator and of a plant from each place on.
fn from_each_place() -> Vec<Call> {
    let mut calls = Vec::new();
    for (tag, readings) in SMALL_KINDS {
        calls.extend((0..readings).map(|first| many_large(tag, first..readings)));
    }
    calls
}

/// One large reading at each end of a consumer's two parts.
fn consumer_ends() -> Vec<Call> {
    let mut calls = Vec::new();
    for (turn, place) in CONSUMER_ENDS.into_iter().enumerate() {
        calls.extend(LARGE.map(|large| adding_with(CONSUMER_TAG, turn, &[(place, large)])));
    }
    calls
}

/// One large reading of a consumer, both sizes in turns.
fn consumer_places() -> Vec<Call> {
    let of_turn = |(turn, place): (usize, usize)| {
        let large = LARGE[turn % LARGE.len()];
        adding_with(CONSUMER_TAG, turn, &[(place, large)])
    };
    CONSUMER_PLACES
        .into_iter()
        .enumerate()
        .map(of_turn)
        .collect()
}

/// Two large readings of a consumer.
fn consumer_pairs() -> Vec<Call> {
    let pairs = CONSUMER_PAIRS.into_iter().enumerate();
    pairs
        .flat_map(|(turn, (first, second))| two_large(CONSUMER_TAG, turn, first, second))
        .collect()
}

/// All readings of a consumer from a place on, and all of its test day.
fn consumer_from_places() -> Vec<Call> {
    let firsts = [0, 1, 40, 47, 48, 49, 1_000];
    let mut calls = firsts
        .map(|first| many_large(CONSUMER_TAG, first..CONSUMER_READINGS))
        .to_vec();
    calls.push(many_large(CONSUMER_TAG, 0..SLOTS_OF_A_DAY));
    calls
}

/// One slot of each day, from the test day on or from a day back on.
fn consumer_slots_of_each_day() -> Vec<Call> {
    let firsts = [0, 26, 47, 48, 74, 95, 48 * 29 + 9];
    let of_days = |first| (first..CONSUMER_READINGS).step_by(SLOTS_OF_A_DAY);
    firsts
        .map(|first| many_large(CONSUMER_TAG, of_days(first)))
        .to_vec()
}

/// Where the large reading of a point stands that is refused for something else:
/// never at 0, so that an index left in the answer shows.
const BESIDE: [(u8, [usize; 2]); 3] = [
    (CONSUMER_TAG, [30, 1_000]),
    (GENERATOR_TAG, [1, 5]),
    (MIXED_FIRING_TAG, [4, 11]),
];

/// A class, baseline or share that 16 or 50 refuses.
fn spoil_class_baseline_or_share(point: &mut PointFields) {
    match point {
        PointFields::Consumer(consumer) => consumer.class = 4,
        PointFields::Generator(generator) => generator.baseline += 1,
        PointFields::MixedFiring(plant) => plant.share += 1,
    }
}

/// Adding a point with a large reading and one fault of 9 to 16, where 16 stands
/// for 50 too; in two forms.
fn refused_beside(tag: u8, place: usize, refusal: u32, form: usize) -> Call {
    let mut state = begun_state();
    let mut point = point_with(tag, form, &[(place, LARGE[form])]);
    let (mut tag, mut places, mut value_more) = (tag, WINDOW_SLOTS, 0);
    match refusal {
        9 => state.terms.head.first_slot = [17, 35][form],
        10 => state.points = state.terms.head.count,
        11 => tag = [HEAD_TAG, 6][form],
        12 => value_more = [-1, 1][form],
        13 => places = [5, 7][form],
        14 => point.number()[NUMBER_LENGTH - 1] = [b'/', b':'][form],
        15 => *point.number() = point_number(LAST - form as u128),
        _ => spoil_class_baseline_or_share(&mut point),
    }
    let mut value = point.value();
    value.resize(value.len().saturating_add_signed(value_more), 0);
    Call::Adding {
        state,
        tag,
        places: lent(places),
        value,
    }
}

/// Each refusal from 9 to 16 and 50 beside a large reading.
fn refused_before() -> Vec<Call> {
    let mut calls = Vec::new();
    for (tag, places) in BESIDE {
        for refusal in 9..=16 {
            calls.extend([0, 1].map(|form| refused_beside(tag, places[form], refusal, form)));
        }
    }
    calls
}

/// A point of each kind with no large reading, each of them just not too large
/// or none at all.
fn good_points() -> Vec<Call> {
    let mut calls = Vec::new();
    for (tag, _) in BESIDE {
        calls.extend([0, HIGHEST_READING].map(|reading| {
            let point = level_point(tag, reading);
            adding_point(&begun_state(), &point)
        }));
    }
    calls
}

/// A consumer with no eligible day or three: with a large reading, which is told
/// before 18, and with none.
fn without_days() -> Vec<Call> {
    let mut calls = Vec::new();
    for left in [0, 3] {
        let mut state = begun_state();
        for &back in &state.terms.eligible_days()[left..] {
            state.terms.marks[usize::from(back) - 1] = 3;
        }
        for place in [0, 30, 47, 48, 1_487] {
            let consumer = point_with(CONSUMER_TAG, place, &[(place, LARGE[left % 2])]);
            calls.push(adding_point(&state, &consumer));
        }
        calls.push(adding_point(
            &state,
            &level_point(CONSUMER_TAG, HIGHEST_READING),
        ));
    }
    calls
}

/// A list in which a point with a large reading stands before each good one,
/// call by call. Nothing of it is left in the next answer.
fn between_good_points() -> Vec<Call> {
    let mut list = List::new(HEAD);
    let kinds = [
        (CONSUMER_TAG, 47),
        (MIXED_FIRING_TAG, 11),
        (CONSUMER_TAG, 1_487),
        (GENERATOR_TAG, 3),
    ];
    for (number, (tag, place)) in (1..).zip(kinds) {
        for large in [Some((place, LARGE[0])), None] {
            let mut point = point_with(tag, 0, large.as_slice());
            *point.number() = point_number(number);
            list.push(point);
        }
    }
    list.head.count = kinds.len() as u32;
    calls_of(&list)
}
