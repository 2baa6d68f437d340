//! Seeded states, also such that no earlier call gave.

use super::fields::point_number;
use super::lists::ordinary;
use super::random::Random;
use crate::ledger::{add, open, State};
use crate::limits::*;
use crate::terms::{Head, Terms};

/// A kind of change to a state.
type Change = fn(&mut Random, &mut State);

/// Changes to one part of a state, to an edge or beyond it.
const CHANGES: [Change; 9] = [
    date, first_slot, loss, contract, count, mark, points, total, last,
];

/// A state as calls give it: opened, with some of its points taken.
pub fn given_state(random: &mut Random) -> State {
    let list = ordinary(random);
    let (_, mut state) = open(&list.head.value(), &list.marks);
    let taken = random.place(list.points.len() + 1);
    for point in &list.points[..taken] {
        state = add(&state, point.tag(), &point.value(), &mut [0; WINDOW_SLOTS]).state;
    }
    state
}

/// A given state with up to three changes.
pub fn changed_state(random: &mut Random) -> State {
    let mut state = given_state(random);
    for _ in 0..random.place(4) {
        random.one_of(&CHANGES)(random, &mut state);
    }
    state
}

/// A head of random bits in every field.
fn any_head(random: &mut Random) -> Head {
    Head {
        year: random.bits() as u16,
        month: random.bits() as u8,
        day: random.bits() as u8,
        first_slot: random.bits() as u8,
        losses: [0; CLASSES].map(|_: u16| random.bits() as u16),
        contract: random.bits() as u32,
        count: random.bits() as u32,
    }
}

/// A state of random bits in every field.
pub fn any_state(random: &mut Random) -> State {
    State {
        terms: Terms {
            head: any_head(random),
            marks: [0; DAYS_BACK].map(|_: u8| random.bits() as u8),
        },
        points: random.bits() as u32,
        totals: [0; WINDOW_SLOTS].map(|_: i64| random.bits() as i64),
        last: [0; NUMBER_LENGTH].map(|_: u8| random.bits() as u8),
    }
}

fn date(random: &mut Random, state: &mut State) {
    let head = &mut state.terms.head;
    (head.year, head.month, head.day) = random.one_of(&[
        (0, 0, 0),
        (2019, 12, 31),
        (2020, 1, 1),
        (2099, 12, 31),
        (2100, 1, 1),
        (2024, 8, 3),
        (2024, 8, 4),
        (2023, 2, 29),
        (u16::MAX, u8::MAX, u8::MAX),
    ]);
}

fn first_slot(random: &mut Random, state: &mut State) {
    state.terms.head.first_slot = random.one_of(&[0, 17, 18, 34, 35, 255]);
}

fn loss(random: &mut Random, state: &mut State) {
    let losses = &mut state.terms.head.losses;
    losses[random.place(CLASSES)] = random.one_of(&[0, 5_000, 5_001, 10_000, u16::MAX]);
}

fn contract(random: &mut Random, state: &mut State) {
    state.terms.head.contract =
        random.one_of(&[0, 1, 999, 1_000, 10_000_000, 10_000_001, u32::MAX]);
}

fn count(random: &mut Random, state: &mut State) {
    let points = state.points;
    state.terms.head.count = random.one_of(&[0, 1, points, 10_000, 10_001, 65_537, u32::MAX]);
}

fn mark(random: &mut Random, state: &mut State) {
    state.terms.marks[random.place(DAYS_BACK)] = random.one_of(&[0, 3, 4, 255]);
}

fn points(random: &mut Random, state: &mut State) {
    let count = state.terms.head.count;
    state.points = random.one_of(&[0, 1, count, count.wrapping_add(1), u32::MAX]);
}

fn total(random: &mut Random, state: &mut State) {
    let furthest = SLOT_TOTAL_OF_A_POINT as i64 * i64::from(state.points.min(100_000));
    let near = random.one_of(&[furthest, furthest + 1, -furthest, -furthest - 1]);
    state.totals[random.place(WINDOW_SLOTS)] = random.one_of(&[0, near, near, i64::MIN, i64::MAX]);
}

fn last(random: &mut Random, state: &mut State) {
    let any = state.last;
    state.last = random.one_of(&[
        [0; NUMBER_LENGTH],
        [b'0'; NUMBER_LENGTH],
        [b'9'; NUMBER_LENGTH],
        point_number(9_999_999_999_999_999_999_998),
        any,
    ]);
    if random.once_in(4) {
        state.last[random.place(NUMBER_LENGTH)] = random.one_of(b"/:");
    }
}
