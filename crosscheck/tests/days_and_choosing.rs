//! Days and the choice of four days, against slower ways.

mod common;

use common::*;
use settlement::books::fields::{ConsumerFields, PointFields};
use settlement::books::lists;
use settlement::books::random::Random;
use settlement::choosing::choose_days;
use settlement::days::{day_count, eligible_days, weekday};

#[test]
fn weekday_facts() {
    let facts = [
        ((2023, 12, 19), 3, 8753),
        ((2024, 1, 10), 4, 8775),
        ((2026, 3, 2), 2, 9557),
        ((2026, 9, 30), 4, 9769),
        ((2027, 4, 1), 5, 9952),
        ((2028, 3, 31), 6, 10317),
        ((2025, 7, 1), 3, 9313),
        ((2025, 7, 9), 4, 9321),
    ];
    for ((year, month, day), weekday_due, count_due) in facts {
        let count = day_count(year, month, day).unwrap();
        assert_eq!(count, count_due, "{year}-{month}-{day}");
        assert_eq!(weekday(count), weekday_due, "{year}-{month}-{day}");
    }
}

#[test]
fn day_count_walks_with_the_calendar() {
    let mut date = (2000, 1, 1);
    let mut dates = 0;
    for count in 0.. {
        let (year, month, day) = date;
        let due = (year >= 2020).then_some(count);
        assert_eq!(day_count(year, month, day), due, "{date:?}");
        dates += u32::from(due.is_some());
        date = next_date(date);
        if date == (2100, 1, 1) {
            break;
        }
    }
    assert_eq!(dates, 80 * 365 + 20);
    assert_eq!(day_count(2100, 1, 1), None);
}

#[test]
fn no_other_dates_exist() {
    let mut dates = 0;
    for year in 2015..2105 {
        for month in 0..=255 {
            for day in 0..=255 {
                dates += u32::from(day_count(year, month, day).is_some());
            }
        }
    }
    assert_eq!(dates, 80 * 365 + 20);
    for year in [0, 1999, 2000, 2019, 2100, u16::MAX] {
        assert_eq!(day_count(year, 1, 1), None);
    }
}

#[test]
fn each_mark_excludes_and_weekends_never_count() {
    let count = day_count(2024, 8, 7).unwrap();
    for mark in 1..=3 {
        let mut marks = [0; 30];
        marks[1] = mark; // Monday
        marks[2] = mark; // Sunday
        assert_eq!(eligible_days(count, &marks)[..4], [1, 5, 6, 7]);
    }
    assert_eq!(eligible_days(count, &[0; 30]).len(), 22);
    assert_eq!(eligible_days(count, &[0; 30]).last(), Some(&30));
}

#[test]
fn days_before_2020_are_eligible() {
    let count = day_count(2020, 1, 1).unwrap(); // Wednesday
    assert_eq!(eligible_days(count, &[0; 30])[..5], [1, 2, 5, 6, 7]);
}

#[test]
fn eligible_days_by_stepping_back() {
    let mut random = Random::new(31);
    for _ in 0..300 {
        let list = lists::ordinary(&mut random);
        let count = day_count(list.head.year, list.head.month, list.head.day).unwrap();
        assert_eq!(eligible_days(count, &list.marks), naive_eligible(&list));
    }
}

/// Both choices for eligible days with sums; they must be the same.
fn choice(eligible: &[u8], of_days: &[u64]) -> Option<[u8; 4]> {
    let mut sums = [7; 30];
    for (back, sum) in eligible.iter().zip(of_days) {
        sums[usize::from(*back) - 1] = *sum;
    }
    let chosen = choose_days(eligible, &sums);
    let pairs = eligible.iter().copied().zip(of_days.iter().copied());
    let naive = naive_choice(pairs.collect());
    assert_eq!(chosen.map(|days| days.to_vec()), naive, "{of_days:?}");
    chosen
}

/// All lists of a length with elements of a few values.
fn every_list(length: usize, values: &[u64]) -> impl Iterator<Item = Vec<u64>> + '_ {
    let lists = values.len().pow(length as u32);
    (0..lists).map(move |order| {
        let place = |digit: usize| order / values.len().pow(digit as u32) % values.len();
        (0..length).map(|digit| values[place(digit)]).collect()
    })
}

#[test]
fn choice_of_every_small_list() {
    let eligible = [1, 2, 5, 6, 7, 8, 9, 12];
    let mut given_back = [0; 5];
    for length in 0..=7 {
        for sums in every_list(length, &[0, 1, 4, 5, 19, 100]) {
            let chosen = choice(&eligible[..length], &sums);
            assert_eq!(chosen.is_some(), length >= 4);
            let standing = naive_standing(eligible.into_iter().zip(sums).collect());
            given_back[4 - standing.len()] += u32::from(chosen.is_some());
        }
    }
    let [none, one, two, three, four] = given_back;
    assert!(none > 100_000 && one > 10_000 && two > 10_000 && three > 1_000);
    assert_eq!(four, 0); // a round never drops the highest of its five
}

/// The days that adding tells of a consumer with these window sums on the
/// eligible days of example M's calendar; all days farther back are marked.
fn days_by_adding(eligible: &[u8], of_days: &[u64]) -> Option<[u8; 4]> {
    let mut list = list_of_count(1);
    let mut consumer = ConsumerFields::flat(1, 1, 1_000_000);
    list.marks = [2; 30];
    for (back, sum) in eligible.iter().zip(of_days) {
        list.marks[usize::from(*back) - 1] = 0;
        consumer.set_window_sum(usize::from(*back), 26, *sum as u32);
    }
    let point = PointFields::Consumer(consumer);
    let added = add_point(&opened(&list), &point);
    let days = days_told(&opened(&list), &point);
    assert_eq!(added.0, if days == [0; 4] { 18 } else { 0 });
    (added.0 == 0).then_some(days)
}

#[test]
fn adding_tells_the_choice_of_every_small_list() {
    let eligible = [1, 5, 6, 14, 29, 30];
    for length in 0..=6 {
        for sums in every_list(length, &[0, 4, 5, 19, 100]) {
            let chosen = choice(&eligible[..length], &sums);
            assert_eq!(days_by_adding(&eligible[..length], &sums), chosen);
        }
    }
}

#[test]
fn the_days_stand_nearest_first_whatever_their_sums() {
    // Worked out by hand: the lowest goes, the order of the days stays.
    let days = [1, 5, 6, 14, 30];
    for (sums, due) in [
        ([50, 40, 30, 20, 10], [1, 5, 6, 14]),
        ([10, 20, 30, 40, 50], [5, 6, 14, 30]),
        ([30, 50, 10, 40, 20], [1, 5, 14, 30]),
        ([20, 10, 50, 30, 40], [1, 6, 14, 30]),
        ([40, 30, 20, 10, 50], [1, 5, 6, 30]),
    ] {
        assert_eq!(days_by_adding(&days, &sums), Some(due));
    }
    assert_eq!(
        days_by_adding(&[14, 15, 29, 30], &[9; 4]),
        Some([14, 15, 29, 30])
    );
}

#[test]
fn choice_of_random_lists_up_to_the_highest_sums() {
    let mut random = Random::new(5);
    let mut given_back = 0;
    for _ in 0..30_000 {
        let length = random.place(23);
        let eligible: Vec<u8> = (1..=length as u8).map(|back| back + 7).collect();
        let scale = random.one_of(&[3, 60, 6_000_000_000]);
        let low_in = random.one_of(&[2, 4, 50]);
        let sum = |random: &mut Random| {
            let low = random.once_in(low_in);
            random.below(if low { scale / 3 } else { scale } + 1)
        };
        let sums: Vec<u64> = (0..length).map(|_| sum(&mut random)).collect();
        assert_eq!(choice(&eligible, &sums).is_some(), length >= 4);
        let standing = naive_standing(eligible.into_iter().zip(sums).collect());
        given_back += u32::from(length >= 4 && standing.len() < 4);
    }
    assert!(given_back > 300, "{given_back}");
}

#[test]
fn fewer_than_five_are_not_tested_again() {
    // The only round drops the fifth day; 16 is then under a quarter of the
    // average of the four left (316 ÷ 16) and is used all the same.
    let days = [1, 2, 3, 4, 5];
    assert_eq!(choice(&days, &[100, 100, 100, 16, 4]), Some([1, 2, 3, 4]));
    assert_eq!(choice(&days[..4], &[100, 100, 100, 0]), Some([1, 2, 3, 4]));
    assert_eq!(choice(&days[..3], &[100, 100, 100]), None);
    assert_eq!(choice(&[], &[]), None);
}

#[test]
fn all_tests_of_a_round_use_the_same_five() {
    // 20 × 50 is less than 1,005, though not less than that without the 10.
    let sums = [400, 245, 300, 50, 10, 500, 500];
    assert_eq!(choice(&[1, 2, 3, 4, 5, 6, 7], &sums), Some([1, 3, 6, 7]));
}

#[test]
fn a_day_kept_in_one_round_may_fall_in_a_later_one() {
    // 20 × 22 is not less than 322; with 200 for the day dropped it is less.
    let sums = [100, 100, 100, 22, 0, 200, 100];
    assert_eq!(choice(&[1, 2, 3, 4, 5, 6, 7], &sums), Some([1, 2, 3, 6]));
}

#[test]
fn equal_sums_lose_the_farthest() {
    let days = [3, 4, 8, 9, 30];
    assert_eq!(choice(&days, &[5, 5, 5, 5, 5]), Some([3, 4, 8, 9]));
    assert_eq!(choice(&days, &[4, 5, 4, 5, 5]), Some([3, 4, 9, 30]));
    assert_eq!(choice(&days, &[0, 0, 0, 0, 0]), Some([3, 4, 8, 9]));
}
