//! Stored calls of adding for the four days that its answer tells: every shape
//! of the choice, refused consumers that have four days, other kinds.

use super::*;

/// All of them, in their order.
pub fn day_calls() -> Vec<Call> {
    let parts = [
        lowest_of_five(),
        dropped_in_the_first_round(),
        several_rounds(),
        four_eligible_days(),
        days_far_apart(),
        dropped_of_few(),
        marks_among_the_days(),
        refused_with_four_days(),
        states_refused_with_four_days(),
        other_kinds_between_consumers(),
    ];
    parts.concat()
}

/// Monday to Friday of example M's week, by their day of August. On the last
/// three, day 30 back is a working day.
const TEST_DAYS: [u8; 5] = [5, 6, 7, 8, 9];

/// First slots of the window: example M's, the lowest and the highest.
const FIRST_SLOTS: [u8; 3] = [26, LOWEST_FIRST_SLOT, HIGHEST_FIRST_SLOT];

/// Window sums of which none is under a quarter, neither rising nor falling.
const SUMS: [u32; 7] = [9_300, 9_700, 9_100, 9_900, 9_500, 9_200, 9_800];

/// A window sum below those, not under a quarter either.
const LOWEST: u32 = 9_000;

/// One point of three taken, test days and windows in turn.
pub(super) fn state_on(turn: usize) -> State {
    let mut state = begun_state();
    let head = &mut state.terms.head;
    head.day = TEST_DAYS[turn % TEST_DAYS.len()];
    head.first_slot = FIRST_SLOTS[turn % FIRST_SLOTS.len()];
    state
}

/// A consumer with these window sums on the eligible days, nearest first, and
/// the last of them on all days farther back. Every day has earlier readings of
/// its own; days that are not eligible have high sums.
pub(super) fn consumer_of(state: &State, sums: &[u32]) -> ConsumerFields {
    let first_slot = state.terms.head.first_slot;
    let mut consumer = level_consumer(2, 2_000);
    for back in 0..=DAYS_BACK {
        let earlier = 1_500 + 37 * back as u32;
        consumer.earlier(back, first_slot).fill(earlier);
    }
    let farther = sums.iter().chain(sums.last().into_iter().cycle());
    for (back, &sum) in state.terms.eligible_days().into_iter().zip(farther) {
        consumer.set_window_sum(usize::from(back), first_slot, sum);
    }
    consumer.window(0, first_slot).fill(700);
    consumer
}

fn adding_of(state: &State, sums: &[u32]) -> Call {
    adding(state, CONSUMER_TAG, consumer_of(state, sums).value())
}

/// [`SUMS`] with another sum at the places of a set.
fn sums_with(set: u32, sum: u32) -> [u32; 7] {
    std::array::from_fn(|place| match set >> place & 1 {
        1 => sum,
        _ => SUMS[place],
    })
}

/// Marks all eligible days but those at these places, nearest first. The marks
/// take turns.
pub(super) fn leave_places(state: &mut State, places: &[usize]) {
    for (place, back) in state.terms.eligible_days().into_iter().enumerate() {
        if !places.contains(&place) {
            state.terms.marks[usize::from(back) - 1] = 1 + (place % 3) as u8;
        }
    }
}

/// Adding a consumer with the eligible days at these places alone.
pub(super) fn adding_with_places(turn: usize, places: &[usize], sums: &[u32]) -> Call {
    let mut state = state_on(turn);
    leave_places(&mut state, places);
    adding_of(&state, sums)
}

/// Every set of the five is lowest together: each day alone, and every tie.
fn lowest_of_five() -> Vec<Call> {
    let sets = 1..1 << DAYS_OF_A_ROUND;
    sets.map(|set: u32| adding_of(&state_on(set as usize), &sums_with(set, LOWEST)))
        .collect()
}

/// Every set of the five that a round can drop.
fn dropped_in_the_first_round() -> Vec<Call> {
    let all = (1 << DAYS_OF_A_ROUND) - 1;
    (1..all)
        .map(|set: u32| adding_of(&state_on(set as usize), &sums_with(set, set)))
        .collect()
}

/// Every second, third or fourth day is low, so that several rounds drop days.
fn several_rounds() -> Vec<Call> {
    let low_days = [(2, 0), (2, 1), (3, 0), (3, 1), (3, 2), (4, 0), (4, 3)];
    let mut calls = Vec::new();
    for (step, first) in low_days {
        let mut sums = SUMS.repeat(4);
        let low = sums.iter_mut().skip(first).step_by(step);
        low.for_each(|sum| *sum = 3);
        calls.push(adding_of(&state_on(calls.len()), &sums));
    }
    calls
}

/// Exactly four eligible days: the nearest four, the next four and so on to the
/// farthest, on each test day.
fn four_eligible_days() -> Vec<Call> {
    let mut calls = Vec::new();
    for turn in 0..TEST_DAYS.len() {
        let farthest = state_on(turn).terms.eligible_days().len() - CHOSEN_DAYS;
        let firsts = (0..farthest).step_by(CHOSEN_DAYS).chain([farthest]);
        calls.extend(firsts.map(|first| {
            let places: Vec<usize> = (first..first + CHOSEN_DAYS).collect();
            adding_with_places(turn, &places, &SUMS)
        }));
    }
    calls
}

/// Four or five eligible days, the nearest and the farthest of all among them.
fn days_far_apart() -> Vec<Call> {
    let between: [&[usize]; 3] = [&[1, 2], &[6, 13], &[3, 9, 15]];
    let mut calls = Vec::new();
    for turn in 0..TEST_DAYS.len() {
        let farthest = state_on(turn).terms.eligible_days().len() - 1;
        calls.extend(between.map(|between| {
            let places = [&[0], between, &[farthest]].concat();
            adding_with_places(turn, &places, &SUMS)
        }));
    }
    calls
}

/// Five or six eligible days apart from each other, of which a round drops one
/// to four: five days stand, four, or fewer.
fn dropped_of_few() -> Vec<Call> {
    let places = [0, 3, 7, 11, 16, 19];
    let sets = (1..1u32 << DAYS_OF_A_ROUND).filter(|set| set.count_ones() <= 2 || set % 8 == 7);
    let mut calls = Vec::new();
    for set in sets {
        calls.extend([5, 6].map(|eligible| {
            adding_with_places(set as usize, &places[..eligible], &sums_with(set, 2))
        }));
    }
    calls
}

/// Each mark on each of the nearest seven days, weekends among them.
fn marks_among_the_days() -> Vec<Call> {
    let mut calls = Vec::new();
    for place in 0..7 {
        calls.extend([1, 2, 3].map(|mark| {
            let mut state = state_on(place + usize::from(mark));
            state.terms.marks[place] = mark;
            adding_of(&state, &SUMS)
        }));
    }
    calls
}

/// A consumer that has four days, with one fault of 10 to 17, in two forms; those
/// of 17 are 51 and 52.
fn refused_consumer(refusal: u32, form: usize) -> Call {
    let mut state = state_on(form);
    let mut consumer = consumer_of(&state, &SUMS);
    let (mut tag, mut places, mut length) = (CONSUMER_TAG, WINDOW_SLOTS, CONSUMER_LENGTH);
    match refusal {
        10 => (state.terms.head.count, state.points) = [(1, 1), (3, 3)][form],
        11 => tag = [HEAD_TAG, 6][form],
        12 => length = [CONSUMER_LENGTH - 1, CONSUMER_LENGTH + 1][form],
        13 => places = [5, 7][form],
        14 => consumer.number = [NOT_YET_ISSUED, [b':'; NUMBER_LENGTH]][form],
        15 => consumer.number = point_number(LAST - form as u128),
        16 => consumer.class = [0, 4][form],
        _ => consumer.readings[[0, CONSUMER_READINGS - 1][form]] = HIGHEST_READING + 1,
    }
    let mut value = consumer.value();
    value.resize(length, 0);
    Call::Adding {
        state,
        tag,
        places: lent(places),
        value,
    }
}

/// Each refusal from 10 to 16, 51 and 52 of a consumer that has four days.
fn refused_with_four_days() -> Vec<Call> {
    let forms = |refusal| [0, 1].map(|form| refused_consumer(refusal, form));
    (10..=17).flat_map(forms).collect()
}

/// A consumer that has four days, and a state that 9 refuses.
fn states_refused_with_four_days() -> Vec<Call> {
    let faults: [fn(&mut State); 8] = [
        |state| state.terms.head.day = 10, // a Saturday
        |state| state.terms.head.losses[0] = HIGHEST_LOSS + 1,
        |state| state.terms.head.contract = 1,
        |state| state.terms.head.count = HIGHEST_COUNT + 1,
        |state| state.terms.marks[29] = HIGHEST_MARK + 1,
        |state| state.points = state.terms.head.count + 1,
        |state| state.totals[3] = SLOT_TOTAL_OF_A_POINT as i64 + 1,
        |state| state.last = NOT_YET_ISSUED,
    ];
    let mut calls = Vec::new();
    for fault in faults {
        let mut state = state_on(calls.len());
        let consumer = consumer_of(&state, &SUMS);
        fault(&mut state);
        calls.push(adding(&state, CONSUMER_TAG, consumer.value()));
    }
    calls
}

/// A list of consumers with generators and a plant between them, call by call.
fn other_kinds_between_consumers() -> Vec<Call> {
    let state = state_after(HEAD, &NO_MARKS, &[]);
    let mut list = List::new(HEAD);
    for number in 0..6 {
        let mut consumer = consumer_of(&state, &SUMS[number as usize % 3..]);
        consumer.number = point_number(number);
        list.push(match number {
            1 | 4 => PointFields::Generator(GeneratorFields::flat(number, 2, 40_000)),
            2 => PointFields::MixedFiring(MixedFiringFields::flat(number, 250, 900, 80)),
            _ => PointFields::Consumer(consumer),
        });
    }
    calls_of(&list)
}
