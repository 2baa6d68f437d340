//! Stored calls of adding for days that return: every set of low days among five,
//! days behind the five, several rounds, few eligible days; refused consumers that
//! would have such days.

use super::days::{adding_with_places, consumer_of, leave_places, state_on};
use super::*;

/// All of them, in their order.
pub fn returning_calls() -> Vec<Call> {
    let parts = [
        low_days_of_five(),
        equal_low_days(),
        days_behind_the_five(),
        rounds_of_the_whole_calendar(),
        few_eligible_days(),
        all_sums_zero(),
        highest_sums(),
        refused_with_days_to_return(),
        consumers_with_days_returned(),
    ];
    parts.concat()
}

/// The five eligible days of most calls, by their place among the nearest.
const FIVE: [usize; 5] = [0, 2, 5, 11, 19];

/// A window sum; beside one such day those up to 1,000 are under a quarter.
const HIGH: u32 = 80_000;

/// Every set of two, three or four of five days.
fn sets_of_five() -> impl Iterator<Item = u32> {
    (1..1u32 << DAYS_OF_A_ROUND)
        .filter(|set| (2..DAYS_OF_A_ROUND as u32).contains(&set.count_ones()))
}

/// [`HIGH`] window sums, at the places of a set these instead, in their order.
fn sums_of_set(set: u32, low: [u32; 4]) -> Vec<u32> {
    let mut low = low.into_iter();
    let sum = |place| match set >> place & 1 {
        1 => low.next().unwrap_or(HIGH),
        _ => HIGH,
    };
    (0..DAYS_OF_A_ROUND).map(sum).collect()
}

/// Every set of low days with each of these sums.
fn every_set_with(orders: &[[u32; 4]]) -> Vec<Call> {
    let mut calls = Vec::new();
    for (turn, set) in sets_of_five().enumerate() {
        let with = |&low| adding_with_places(turn, &FIVE, &sums_of_set(set, low));
        calls.extend(orders.iter().map(with));
    }
    calls
}

/// Low days all apart: rising, falling, and neither.
fn low_days_of_five() -> Vec<Call> {
    every_set_with(&[[3, 5, 7, 9], [9, 7, 5, 3], [5, 9, 3, 7]])
}

/// Low days all equal, and equal ones with a higher or a lower one before, between
/// or behind them.
fn equal_low_days() -> Vec<Call> {
    every_set_with(&[
        [8; 4],
        [8, 9, 8, 8],
        [9, 8, 8, 7],
        [8, 8, 7, 9],
        [8, 7, 8, 9],
    ])
}

/// Six to eight eligible days: behind the five those that no round looks at, or
/// that the next round drops. Two or three low ones of the five are dropped.
fn days_behind_the_five() -> Vec<Call> {
    let places = [0, 2, 5, 11, 14, 16, 18, 19];
    let behind: [&[u32]; 9] = [
        &[1],
        &[0],
        &[20],
        &[HIGH],
        &[20, 1],
        &[HIGH, 1],
        &[21, 20, 1],
        &[19, 20, 30],
        &[HIGH, 20, 3],
    ];
    let fives = [
        [400, 400, 20, 20, 20],
        [20, 400, 20, 400, 20],
        [20, 20, 20, 400, 400],
        [400, 21, 20, 400, 19],
        [400, 400, 400, 20, 30],
        [HIGH, 700, HIGH, 900, 800],
    ];
    let mut calls = Vec::new();
    for five in fives {
        for behind in behind {
            let sums = [&five[..], behind].concat();
            calls.push(adding_with_places(
                calls.len(),
                &places[..sums.len()],
                &sums,
            ));
        }
    }
    calls
}

/// Window sums of so many days, of which each round drops all but one, the high
/// one: in front, and the others lower and lower.
fn falling(days: usize) -> Vec<u32> {
    let low = (1..days as u32).map(|place| 900 - place);
    [HIGH].into_iter().chain(low).collect()
}

/// Each four days are twenty times as high as those before, and all four go.
fn rising(days: usize) -> Vec<u32> {
    let level = |place: usize| 3 * 20u32.pow(place as u32 / 4);
    (0..days).map(level).collect()
}

/// Each round drops one day, its nearest, but the last round drops four.
fn doubling(days: usize) -> Vec<u32> {
    let mut sums: Vec<u32> = (0..days).map(|place| 60 << place).collect();
    sums.iter_mut().skip(days - 1).for_each(|last| *last <<= 4);
    sums
}

/// Every ninth day is high, all others are equal.
fn high_among_equal(days: usize, first: usize) -> Vec<u32> {
    let sum = |place| if place % 9 == first { HIGH } else { 12 };
    (0..days).map(sum).collect()
}

/// All eligible days of the calendar, on each test day. Those that return are of
/// the first round, of the last, or of any.
fn rounds_of_the_whole_calendar() -> Vec<Call> {
    let mut calls = Vec::new();
    for turn in 0..DAYS_OF_A_ROUND {
        let state = state_on(turn);
        let days = state.terms.eligible_days().len();
        let all = [
            falling(days),
            rising(days),
            doubling(days),
            high_among_equal(days, turn),
        ];
        let with = |sums: Vec<u32>| consumer_of(&state, &sums).value();
        calls.extend(all.map(|sums| adding(&state, CONSUMER_TAG, with(sums))));
    }
    calls
}

/// No eligible day to four of them, anywhere among the thirty; all others, weekends
/// too, have higher sums. Four are taken whatever their sums.
fn few_eligible_days() -> Vec<Call> {
    let of_four: [[usize; 4]; 4] = [
        [0, 1, 2, 3],
        [16, 17, 18, 19],
        [0, 6, 12, 19],
        [3, 4, 15, 16],
    ];
    let mut calls = Vec::new();
    for sums in [[400, 20, 1, 0], [0, 0, 1, 400], [20, 20, 20, 20]] {
        for eligible in 0..=CHOSEN_DAYS {
            for places in of_four {
                let mut state = state_on(calls.len());
                leave_places(&mut state, &places[..eligible]);
                let consumer = with_high_days_kept_out(&state, &sums);
                calls.push(adding(&state, CONSUMER_TAG, consumer.value()));
            }
        }
    }
    calls
}

/// A consumer with these window sums on the eligible days, and the highest that
/// six readings can have on all other days.
fn with_high_days_kept_out(state: &State, sums: &[u32]) -> ConsumerFields {
    let first_slot = state.terms.head.first_slot;
    let mut consumer = consumer_of(state, sums);
    let eligible = state.terms.eligible_days();
    for back in (1..=30).filter(|back| !eligible.contains(back)) {
        consumer
            .window(usize::from(back), first_slot)
            .fill(HIGHEST_READING);
    }
    consumer
}

/// All window sums 0, or all but that of one of the nearest five.
fn all_sums_zero() -> Vec<Call> {
    let places = [0, 2, 5, 11, 14, 16, 18];
    let mut calls = Vec::new();
    for eligible in 3..=places.len() {
        let mut with = |sums: &[u32]| {
            calls.push(adding_with_places(calls.len(), &places[..eligible], sums));
        };
        with(&vec![0; eligible]);
        for high in 0..eligible.min(DAYS_OF_A_ROUND) {
            let mut sums = vec![0; eligible];
            sums[high] = 9;
            with(&sums);
        }
    }
    calls
}

/// Five eligible days of the highest readings, but low ones at the places of a
/// set, of which the lowest readings differ by 1.
fn highest_sums() -> Vec<Call> {
    let of_set = |(turn, set): (usize, u32)| {
        let mut state = state_on(turn);
        leave_places(&mut state, &FIVE);
        let mut consumer = consumer_of(&state, &[HIGH]);
        for (place, back) in state.terms.eligible_days().into_iter().enumerate() {
            let window = consumer.window(usize::from(back), state.terms.head.first_slot);
            window.fill(HIGHEST_READING);
            if set >> place & 1 == 1 {
                window.fill(40_000_000);
                window[place] += place as u32;
            }
        }
        adding(&state, CONSUMER_TAG, consumer.value())
    };
    sets_of_five().enumerate().map(of_set).collect()
}

/// Two days stand and two return, where nothing refuses the consumer.
const TWO_RETURN: [u32; 5] = [HIGH, 8, HIGH, 9, 7];

/// Such a consumer refused by each number from 9 to 16 and by 51 and 52: its days
/// are not told.
fn refused_with_days_to_return() -> Vec<Call> {
    let given = |change: &dyn Fn(&mut State, &mut ConsumerFields)| {
        let mut state = state_on(0);
        leave_places(&mut state, &FIVE);
        let mut consumer = consumer_of(&state, &TWO_RETURN);
        change(&mut state, &mut consumer);
        (state, consumer.value())
    };
    let changed = |change: &dyn Fn(&mut State, &mut ConsumerFields)| {
        let (state, value) = given(change);
        adding(&state, CONSUMER_TAG, value)
    };
    let mut calls = vec![
        changed(&|_, _| ()),
        changed(&|state, _| state.totals[5] = i64::MIN),
        changed(&|state, _| state.terms.head.count = 1),
        changed(&|_, consumer| consumer.number[9] = b'a'),
        changed(&|_, consumer| consumer.number = point_number(LAST)),
        changed(&|_, consumer| consumer.class = 4),
        changed(&|_, consumer| consumer.readings[47] = HIGHEST_READING + 1),
        changed(&|_, consumer| consumer.readings[48] = HIGHEST_READING + 1),
    ];
    let (state, value) = given(&|_, _| ());
    calls.push(adding(&state, MIXED_FIRING_TAG, value.clone()));
    calls.push(adding(&state, HEAD_TAG, value.clone()));
    calls.push(adding(&state, CONSUMER_TAG, value[1..].to_vec()));
    calls.push(Call::Adding {
        state,
        tag: CONSUMER_TAG,
        places: lent(WINDOW_SLOTS - 1),
        value,
    });
    calls
}

/// A list of consumers to whom one, two or three days return, each behind one that
/// has four days anyhow, call by call.
fn consumers_with_days_returned() -> Vec<Call> {
    let mut state = state_after(HEAD, &NO_MARKS, &[]);
    leave_places(&mut state, &FIVE);
    let mut list = List::new(HEAD);
    list.marks = state.terms.marks;
    let sets = [0, 0b00011, 0, 0b10101, 0, 0b11110];
    for (number, set) in (0..).zip(sets) {
        let mut consumer = consumer_of(&state, &sums_of_set(set, [6, 6, 5, 7]));
        consumer.number = point_number(number);
        list.push(PointFields::Consumer(consumer));
    }
    calls_of(&list)
}
