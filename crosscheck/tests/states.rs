//! Refusal 9: states that no earlier call gave.

mod common;

use common::*;
use settlement::books::random::Random;
use settlement::books::states::{any_state, changed_state, given_state};
use settlement::ledger::{add, close, open, Added, Figures, State};
use settlement::terms::Terms;

/// A state with two of two points taken, totals at 1,000.
fn full_state() -> State {
    let state = opened(&list_of_count(2));
    let (_, state, _) = add_point(&state, &generator(5, 0, 400));
    add_point(&state, &generator(6, 0, 600)).1
}

/// Whether 9 is told, by both operations alike; nothing else may change.
fn told_9(state: &State) -> bool {
    let mut places = [UNWRITTEN; 6];
    let value = generator(1 << 70, 0, 1).value();
    let Added {
        refusal: adding,
        index,
        state: after,
        days,
    } = add(state, 4, &value, &mut places);
    let (closing, figures) = close(state);
    assert_eq!(adding == 9, closing == 9, "{state:?}");
    assert_eq!(index, 0);
    if adding != 0 {
        assert_eq!((after, places), (*state, [UNWRITTEN; 6]));
        assert_eq!(days, [0; 4]);
    }
    if closing != 0 {
        assert_eq!(figures, Figures::default());
    }
    adding == 9
}

/// Rule 9 the long way: the state's contents as a head and calendar given to
/// opening, then each further clause.
fn due_9(state: &State) -> bool {
    let Terms { head, marks } = &state.terms;
    if head.count > u32::from(u16::MAX) {
        return true;
    }
    if open(&head.value(), marks).0 != 0 || state.points > head.count {
        return true;
    }
    let limit = 4_000_000_000 * i64::from(state.points);
    if state
        .totals
        .iter()
        .any(|&total| total > limit || total < -limit)
    {
        return true;
    }
    let text = String::from_utf8_lossy(&state.last).into_owned();
    let digits = text.len() == 22 && text.chars().all(|digit| "0123456789".contains(digit));
    state.points > 0 && (!digits || text == "9".repeat(22))
}

#[test]
fn nine_as_the_long_way_tells_it() {
    let mut random = Random::new(9);
    let mut told = 0;
    for _ in 0..40_000 {
        let state = changed_state(&mut random);
        assert_eq!(told_9(&state), due_9(&state), "{state:?}");
        told += u32::from(due_9(&state));
    }
    assert!((8_000..32_000).contains(&told), "{told}");
}

#[test]
fn nine_for_random_bits() {
    let mut random = Random::new(10);
    for _ in 0..100_000 {
        let state = any_state(&mut random);
        assert_eq!(told_9(&state), due_9(&state), "{state:?}");
    }
}

#[test]
fn never_nine_for_given_states() {
    let mut random = Random::new(11);
    let mut with_points = 0;
    for _ in 0..3_000 {
        let state = given_state(&mut random);
        assert!(!told_9(&state), "{state:?}");
        with_points += u32::from(state.points > 0);
    }
    assert!(with_points > 1_000, "{with_points}");
}

#[test]
fn nine_for_what_opening_refuses() {
    let changes: [fn(&mut State); 14] = [
        |state| state.terms.head.year = 2019,
        |state| state.terms.head.year = 2100,
        |state| state.terms.head.month = 0,
        |state| state.terms.head.month = 13,
        |state| state.terms.head.day = 0,
        |state| state.terms.head.day = 32,
        |state| state.terms.head.day = 10, // a Saturday
        |state| state.terms.head.first_slot = 17,
        |state| state.terms.head.first_slot = 35,
        |state| state.terms.head.losses[0] = 5_001,
        |state| state.terms.head.losses[2] = 5_001,
        |state| state.terms.head.contract = 999,
        |state| state.terms.head.count = 10_001,
        |state| state.terms.marks[29] = 4,
    ];
    assert!(!told_9(&full_state()));
    for (place, change) in changes.iter().enumerate() {
        let mut state = full_state();
        change(&mut state);
        assert!(told_9(&state), "change {place}");
    }
    assert!(told_9(&State::ZEROS));
}

#[test]
fn nine_for_counts_beyond_two_bytes() {
    for count in [65_536 + 2, 1 << 31, u32::MAX] {
        let mut state = full_state();
        state.terms.head.count = count;
        assert!(told_9(&state));
    }
}

#[test]
fn nine_for_more_points_than_the_count() {
    for (points, due) in [(1, false), (2, false), (3, true), (u32::MAX, true)] {
        let state = State {
            points,
            ..full_state()
        };
        assert_eq!(told_9(&state), due);
    }
}

#[test]
fn nine_for_totals_beyond_the_limit() {
    let limit = 4_000_000_000 * 2;
    for slot in 0..6 {
        for (total, due) in [
            (limit, false),
            (limit + 1, true),
            (-limit, false),
            (-limit - 1, true),
            (i64::MAX, true),
            (i64::MIN, true),
        ] {
            let mut state = full_state();
            state.totals[slot] = total;
            assert_eq!(told_9(&state), due, "{total}");
        }
    }
}

#[test]
fn nine_for_totals_without_points() {
    for (total, due) in [(0, false), (1, true), (-1, true)] {
        let mut state = opened(&list_of_count(2));
        state.totals[5] = total;
        assert_eq!(told_9(&state), due);
    }
}

#[test]
fn nine_for_a_last_number_only_with_points() {
    let lasts = [[0; 22], [b'9'; 22], [b':'; 22], [b'/'; 22], [255; 22]];
    for last in lasts {
        let with_points = State {
            last,
            ..full_state()
        };
        assert!(told_9(&with_points));
        let without = State {
            last,
            ..opened(&list_of_count(2))
        };
        assert!(!told_9(&without));
    }
    let zeros = State {
        last: [b'0'; 22],
        ..full_state()
    };
    assert!(!told_9(&zeros));
}

#[test]
fn the_furthest_state_closes() {
    let mut state = State {
        points: 10_000,
        totals: [-40_000_000_000_000; 6],
        ..full_state()
    };
    state.terms.head.count = 10_000;
    state.terms.head.contract = 10_000_000;
    let (number, figures) = close(&state);
    assert_eq!(number, 0);
    assert_eq!(figures.total, -240_000_000_000_000);
    assert_eq!(figures.settled, -80_000_000_000);
    assert_eq!(figures.shortfall, 80_010_000_000);
    assert_eq!(figures.points, 10_000);
}
