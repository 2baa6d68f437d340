//! Slot results and closing figures, against fractions.

mod common;

use common::*;
use settlement::books::fields::*;
use settlement::books::lists::{self, KINDS};
use settlement::books::random::Random;
use settlement::ledger::{closing_figures, Figures};
use settlement::slots::divide_down;

#[test]
fn division_rounds_toward_minus_infinity() {
    for dividend in -20_000..20_000i128 {
        for divisor in [1, 2, 3, 24, 3_000, 19_999] {
            assert_eq!(divide_down(dividend, divisor), dividend.div_euclid(divisor));
        }
    }
    let mut random = Random::new(8);
    for _ in 0..100_000 {
        let dividend = i128::from(random.bits() as i64) * i128::from(random.below(1 << 20));
        let divisor = i128::from(random.below(240_000) + 1);
        let quotient = divide_down(dividend, divisor);
        assert_eq!(dividend - quotient * divisor, dividend.rem_euclid(divisor));
    }
}

#[test]
fn results_are_the_floors_of_the_exact_ones() {
    let mut random = Random::new(2);
    let mut compared = [0; 4];
    for _ in 0..200 {
        for (_, make) in &KINDS {
            compare_points(&make(&mut random), &mut compared);
        }
    }
    let [accepted, too_few_days, below_zero, with_remainder] = compared;
    assert!(accepted > 2_000, "{compared:?}");
    assert!(too_few_days > 50, "{compared:?}");
    assert!(below_zero > 500, "{compared:?}");
    assert!(with_remainder > 1_000, "{compared:?}");
}

/// Adds the first point of a list and compares it with the fractions.
fn compare_points(list: &List, compared: &mut [u32; 4]) {
    let (opening, state) = settlement::ledger::open(&list.head.value(), &list.marks);
    let point = &list.points[0];
    let (number, after, places) = add_point(&state, point);
    if opening != 0 || !matches!(number, 0 | 18) {
        return;
    }
    let Some(exact) = naive_exact_results(list, point) else {
        assert_eq!(number, 18);
        compared[1] += 1;
        return;
    };
    assert_eq!(number, 0);
    let floors: Vec<i64> = exact.iter().map(|result| result.floor() as i64).collect();
    assert_eq!(places[..], floors[..]);
    assert_eq!(after.totals, places);
    compared[0] += 1;
    compared[2] += u32::from(floors.iter().any(|&result| result < 0));
    compared[3] += u32::from(exact.iter().any(|result| !result.is_whole()));
}

#[test]
fn each_class_has_its_own_loss() {
    for (class, due) in [(1u8, 1_032i64), (2, 1_000), (3, 1_920)] {
        let mut list = list_of_count(1);
        list.head.losses = [700, 400, 5_000];
        let mut consumer = ConsumerFields::flat(1, class, 1_200);
        consumer.window(0, 26).fill(240);
        let (_, _, places) = add_point(&opened(&list), &PointFields::Consumer(consumer));
        assert_eq!(places, [due; 6]); // 960 × 10,000 ÷ (10,000 − loss)
    }
}

#[test]
fn each_slot_has_its_own_baseline_and_use() {
    let mut consumer = ConsumerFields::flat(1, 2, 1_200);
    for slot in 0..6u32 {
        for back in 1..=30 {
            *consumer.reading(back, 26 + slot as usize) = 1_200 + 96 * slot;
        }
        *consumer.reading(0, 26 + slot as usize) = 240 + 48 * slot;
    }
    let list = list_of_count(1);
    let (_, _, places) = add_point(&opened(&list), &PointFields::Consumer(consumer));
    assert_eq!(places, [1_000, 1_050, 1_100, 1_150, 1_200, 1_250]);
}

/// A reading at one place, far above the others.
fn raised(back: usize, slot: usize) -> [i64; 6] {
    let mut list = list_of_count(1);
    list.head.losses = [0; 3];
    let mut consumer = ConsumerFields::flat(1, 1, 1_200);
    *consumer.reading(back, slot) += 2_400;
    let (number, _, places) = add_point(&opened(&list), &PointFields::Consumer(consumer));
    assert_eq!(number, 0);
    places
}

#[test]
fn only_earlier_slots_and_the_window_count() {
    // s 26: earlier slots 16 to 21. Chosen days 1, 2, 5, 6 back.
    for slot in 0..48 {
        let today = match slot {
            16..=21 => [400; 6], // 2,400 ÷ 6
            26..=31 => std::array::from_fn(|of| if of + 26 == slot { -2_400 } else { 0 }),
            _ => [0; 6],
        };
        assert_eq!(raised(0, slot), today, "test day, slot {slot}");
        let history = match slot {
            16..=21 => [-100; 6], // 2,400 ÷ 4 ÷ 6
            26..=31 => std::array::from_fn(|of| if of + 26 == slot { 600 } else { 0 }),
            _ => [0; 6],
        };
        assert_eq!(raised(2, slot), history, "day 2 back, slot {slot}");
        assert_eq!(raised(3, slot), [0; 6], "Sunday, slot {slot}");
    }
}

#[test]
fn a_raised_window_brings_a_day_among_the_four() {
    // Day 7 back is the fifth: with the highest sum it stays, day 6 goes.
    assert_eq!(raised(7, 26), [600, 0, 0, 0, 0, 0]);
    assert_eq!(raised(7, 16), [0; 6]);
    assert_eq!(raised(8, 26), [0; 6]);
}

#[test]
fn baseline_is_not_below_zero() {
    let mut seen = [0; 2];
    let mut random = Random::new(4);
    for _ in 0..200 {
        let list = lists::baseline_at_zero(&mut random);
        let (_, _, places) = add_point(&opened(&list), &list.points[0]);
        let exact = naive_exact_results(&list, &list.points[0]).unwrap();
        assert_eq!(i128::from(places[0]), exact[0].floor());
        let PointFields::Consumer(consumer) = &list.points[0] else {
            panic!("a consumer is due");
        };
        let usage = *consumer
            .clone()
            .reading(0, usize::from(list.head.first_slot));
        let loss = i128::from(list.head.losses[usize::from(consumer.class) - 1]);
        let at_zero = Fraction::whole(-i128::from(usage)).times(10_000, 10_000 - loss);
        seen[usize::from(exact[0] == at_zero)] += 1;
    }
    assert!(seen.iter().all(|&times| times > 40), "{seen:?}");
}

#[test]
fn generator_results() {
    let mut list = list_of_count(1);
    list.head.contract = 0;
    let result = |baseline, reading| add_point(&opened(&list), &generator(1, baseline, reading));
    assert_eq!(result(0, 0).2, [0; 6]);
    assert_eq!(result(3, 1_499).2, [-1; 6]);
    assert_eq!(result(1_000_000, 0).2, [-500_000_000; 6]);
    assert_eq!(result(0, 1_000_000_000).2, [1_000_000_000; 6]);
}

/// The first slot result of a plant with a share and the two readings.
fn result_of_plant(share: u16, outside: u32, inside: u32) -> i64 {
    let (number, state, places) = add_point(
        &opened(&list_of_count(1)),
        &plant(1, share, outside, inside),
    );
    assert_eq!(number, 0);
    assert_eq!((state.totals, places), ([places[0]; 6], [places[0]; 6]));
    places[0]
}

#[test]
fn plant_results_by_hand() {
    assert_eq!(result_of_plant(0, 700, 300), 1_000);
    assert_eq!(result_of_plant(333, 700, 300), 667);
    assert_eq!(result_of_plant(500, 1, 0), 0); // 0.5
    assert_eq!(result_of_plant(500, 3, 0), 1); // 1.5
    assert_eq!(result_of_plant(500, 0, 3), 1);
    assert_eq!(result_of_plant(1, 1_000, 0), 999);
    assert_eq!(result_of_plant(1, 999, 0), 998); // 998.001
    assert_eq!(result_of_plant(1, 1, 0), 0); // 0.999
    assert_eq!(result_of_plant(999, 999, 0), 0); // 0.999
    assert_eq!(result_of_plant(999, 1_000, 999), 1); // 1.999
    assert_eq!(result_of_plant(1_000, 1_000_000_000, 1_000_000_000), 0);
    assert_eq!(
        result_of_plant(0, 1_000_000_000, 1_000_000_000),
        2_000_000_000
    );
    // 2,000,000,000 × 0.667 and 1,999,999,999 × 0.667 = 1,333,999,999.333
    assert_eq!(
        result_of_plant(333, 1_000_000_000, 1_000_000_000),
        1_334_000_000
    );
    assert_eq!(
        result_of_plant(333, 1_000_000_000, 999_999_999),
        1_333_999_999
    );
}

#[test]
fn the_two_readings_are_added_before_dividing() {
    // 1.5 and 1.5 make 3, and each by itself 1; 0.999 and 0.002 make 1.001.
    assert_eq!(result_of_plant(500, 3, 3), 3);
    assert_eq!(result_of_plant(999, 999, 2), 1);
    assert_eq!(result_of_plant(333, 500, 500), 667); // 333.5 twice
}

#[test]
fn each_slot_of_a_plant_has_its_own_two_readings() {
    let mut fields = MixedFiringFields::flat(1, 250, 0, 0);
    fields.readings = [4, 8, 12, 16, 20, 24, 400, 800, 1_200, 1_600, 2_000, 2_401];
    let point = PointFields::MixedFiring(fields);
    let (_, _, places) = add_point(&opened(&list_of_count(1)), &point);
    assert_eq!(places, [303, 606, 909, 1_212, 1_515, 1_818]); // three quarters
}

#[test]
fn each_slot_of_a_plant_has_its_own_remainder() {
    let mut fields = MixedFiringFields::flat(1, 333, 300_000, 200_001);
    for (slot, outside) in (0..).zip(&mut fields.readings[..6]) {
        *outside += 7 * slot;
    }
    let point = PointFields::MixedFiring(fields);
    let (_, _, places) = add_point(&opened(&list_of_count(1)), &point);
    // 333,500.667, 333,505.336, 333,510.005, 333,514.674, 333,519.343, 333,524.012
    let due = [333_500, 333_505, 333_510, 333_514, 333_519, 333_524];
    assert_eq!(places, due);
}

#[test]
fn a_plant_has_no_loss_and_no_days() {
    let mut list = list_of_count(1);
    list.head.losses = [5_000; 3];
    list.marks = [1; 30];
    let (number, _, places) = add_point(&opened(&list), &plant(1, 400, 100, 50));
    assert_eq!((number, places), (0, [90; 6]));
}

#[test]
fn results_reach_the_limit_of_a_slot_total() {
    let mut list = list_of_count(1);
    list.head.losses = [5_000; 3];
    let mut consumer = ConsumerFields::flat(1, 3, 0);
    for back in 1..=30 {
        consumer.window(back, 26).fill(1_000_000_000);
    }
    consumer.earlier(0, 26).fill(1_000_000_000);
    let (number, state, places) = add_point(&opened(&list), &PointFields::Consumer(consumer));
    assert_eq!((number, places), (0, [4_000_000_000; 6]));
    assert_eq!(state.check(), Ok(()));
    let mut consumer = ConsumerFields::flat(1, 3, 0);
    consumer.window(0, 26).fill(1_000_000_000);
    let (_, _, places) = add_point(&opened(&list), &PointFields::Consumer(consumer));
    assert_eq!(places, [-2_000_000_000; 6]);
}

#[test]
fn closing_figures_by_hand() {
    let figures = |total, contract| {
        let Figures {
            settled,
            shortfall,
            expected,
            kept,
            surplus,
            bid,
            ..
        } = closing_figures(total, contract, 9);
        (settled, shortfall, expected, kept, surplus, bid)
    };
    assert_eq!(figures(0, 0), (0, 0, 0, 0, 0, false));
    assert_eq!(figures(3_000_000, 1_000), (1_000, 0, 1_000, 1_000, 0, true));
    assert_eq!(figures(2_999_999, 1_000), (999, 1, 999, 999, 0, false));
    assert_eq!(figures(3_003_000, 1_000), (1_001, 0, 1_001, 1_000, 1, true));
    assert_eq!(figures(3_003_000, 0), (1_001, 0, 1_001, 0, 1_001, true));
    assert_eq!(figures(-3_000, 1_000), (-1, 1_001, 0, 0, 0, false));
    assert_eq!(figures(-3_001, 0), (-2, 2, 0, 0, 0, false));
    assert_eq!(closing_figures(-3_001, 0, 9).total, -3_001);
    assert_eq!(closing_figures(-3_001, 0, 9).points, 9);
}
