//! Stored calls of adding a mixed-firing plant.

use super::*;
use crate::books::edges::SHARES;

/// All of them, in their order.
pub fn plant_calls() -> Vec<Call> {
    let parts = [
        plant_faults(),
        plant_places_tags_and_days(),
        plant_edges(),
        plant_divisions(),
    ];
    parts.concat()
}

/// Adding a mixed-firing plant with the faults of a set, 9 to 17, where 16
/// stands for 50 and 17 for 51.
pub fn faulty_plant(faults: u32) -> Call {
    let mut state = begun_state();
    state.terms.head.contract = if holds(faults, 9) { 999 } else { 0 };
    state.terms.head.count = if holds(faults, 10) { 1 } else { 2 };
    let number = if holds(faults, 15) { LAST } else { LAST + 1 };
    let mut plant = MixedFiringFields::flat(number, WHOLE_SHARE, HIGHEST_READING, HIGHEST_READING);
    if holds(faults, 14) {
        plant.number[9] = b':';
    }
    plant.share += u16::from(holds(faults, 16));
    plant.readings[11] += u32::from(holds(faults, 17));
    let mut value = plant.value();
    if holds(faults, 12) {
        value.pop();
    }
    Call::Adding {
        state,
        tag: if holds(faults, 11) {
            6
        } else {
            MIXED_FIRING_TAG
        },
        places: lent(if holds(faults, 13) { 5 } else { 6 }),
        value,
    }
}

/// Every set of the faults 9 to 17 of a mixed-firing plant.
fn plant_faults() -> Vec<Call> {
    let sets = sets_of(&[9, 10, 11, 12, 13, 14, 15, 16, 17]);
    sets.into_iter().map(faulty_plant).collect()
}

/// A mixed-firing plant with 0 to 8 lent places; its value with the tags of the
/// other kinds; and with no eligible day, which it does not need.
fn plant_places_tags_and_days() -> Vec<Call> {
    let mut state = begun_state();
    let value = MixedFiringFields::flat(LAST + 1, 250, 40_001, 30_000).value();
    let mut calls = Vec::new();
    for count in 0..=MOST_PLACES {
        calls.push(Call::Adding {
            state,
            tag: MIXED_FIRING_TAG,
            places: lent(count),
            value: value.clone(),
        });
    }
    for tag in [CONSUMER_TAG, GENERATOR_TAG, 6] {
        calls.push(adding(&state, tag, value.clone()));
    }
    state.terms.marks = [1; DAYS_BACK];
    calls.push(adding(&state, MIXED_FIRING_TAG, value));
    calls
}

/// A mixed-firing plant's share and each of its twelve readings at the edges.
pub fn plant_edges() -> Vec<Call> {
    let state = begun_state();
    let mut calls = Vec::new();
    for share in SHARES {
        for place in 0..MIXED_FIRING_READINGS {
            for reading in READINGS {
                let mut plant = MixedFiringFields::flat(LAST + 1, share, 250_000_007, 3);
                plant.readings[place] = reading;
                calls.push(adding(&state, MIXED_FIRING_TAG, plant.value()));
            }
        }
    }
    calls
}

/// Divisions of a mixed-firing plant around a whole quotient, the two readings
/// in any parts: only together they are a multiple of 1,000.
fn plant_divisions() -> Vec<Call> {
    let state = begun_state();
    let mut calls = Vec::new();
    for share in [0, 1, 2, 333, 499, 500, 501, 666, 998, 999, 1_000] {
        for outside in [0, 1, 499, 500, 999, 1_000, 1_001] {
            let mut plant = MixedFiringFields::flat(LAST + 1, share, outside, 0);
            let inside = [
                0,
                1_000 - outside % 1_000,
                1_999 - outside % 1_000,
                1,
                999,
                2_001,
            ];
            plant.readings[WINDOW_SLOTS..].copy_from_slice(&inside);
            calls.push(adding(&state, MIXED_FIRING_TAG, plant.value()));
        }
    }
    calls
}
